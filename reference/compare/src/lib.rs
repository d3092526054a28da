//! The proved library and program against the reference decoder.
//!
//! Each entry point of the static library is called, through the package `petsivola`, on random
//! inputs, accepted and damaged, and the reference decoder on the same ones. The answers must be
//! equal, and so must every lent element afterwards, with those around the lent slices. The program
//! `decode` must print what the reference decoder's program prints, byte for byte.
//!
//! Document 01, "Agreement": "the remaining cases are executed against expected output, beside an
//! independent Rust decoder."
//!
//! The tests make a fixed number of calls from fixed seeds; the program `compare` makes as many as
//! it is asked for. Both fail when something differs, and also when a kind of answer that the
//! documents have was never met: see [`Tally`].

#![forbid(unsafe_code)]
#![deny(missing_docs)]

mod calls;
mod comparison;
mod lent;
pub mod programs;
mod tally;

pub use calls::{
    EntryPoint, CHANNELS, CHECK, CODE_LINE, COMBINE, DECODE, DISPLAY, EARLY, ENCODE, ENTRY_POINTS,
    EXPAND, LINE, PRODUCT, SWEEP, WINDOW,
};
pub use comparison::Difference;
pub use tally::{Class, Tally};
