//! `line` and `decode` of the static library against the reference decoder, from a fixed seed. Each
//! test prints one line with its counts and fails when a class of answers was never met.

mod entry_point;

use compare::{DECODE, LINE};

#[test]
fn lines() {
    entry_point::compare(&LINE);
}

#[test]
fn decodings() {
    entry_point::compare(&DECODE);
}
