//! `product`, `check`, `sweep` and `expand` of the static library against the reference decoder, from a
//! fixed seed. Each test prints one line with its counts and fails when a class of answers was never met.

mod entry_point;

use compare::{CHECK, EXPAND, PRODUCT, SWEEP};

#[test]
fn products() {
    entry_point::compare(&PRODUCT);
}

#[test]
fn checks() {
    entry_point::compare(&CHECK);
}

/// The library's `check` is called too, on the same inputs.
#[test]
fn sweeps() {
    entry_point::compare(&SWEEP);
}

#[test]
fn expansions() {
    entry_point::compare(&EXPAND);
}
