//! `decode`.

pub mod common;
pub mod inputs;
mod seen;

use reference_decoder::sample::Generator;

use super::{buffers, first_byte, of_library, of_reference, EntryPoint};
use crate::comparison::Difference;
use crate::tally::{Class, Tally};
use inputs::Input;

/// `decode`.
pub const DECODE: EntryPoint = EntryPoint {
    name: "decode",
    expected: seen::expected,
    call,
    every,
};

/// A random call.
fn call(generator: &mut Generator, tally: &mut Tally) -> Result<(), Difference> {
    let input = Input::random(generator);
    compare(generator, &input, tally)
}

/// A call with every first byte.
fn every(tally: &mut Tally) -> Result<(), Difference> {
    let mut generator = Generator::new(0);
    for first in first_byte::ALL {
        let input = Input::with_first_byte(&mut generator, first);
        compare(&mut generator, &input, tally)?;
    }
    Ok(())
}

fn compare(generator: &mut Generator, input: &Input, tally: &mut Tally) -> Result<(), Difference> {
    let (expected, filled, comparison) =
        buffers::compare(generator, input, by_library, by_reference);
    tally.answer(match expected {
        Ok((status, t)) => Class::of_outcome(status, t),
        Err(number) => Class::Refused(number),
    });
    seen::see(tally, input, expected, &filled);
    comparison.end("decode", || input.inputs())
}

/// The library's decoding: status and t, or the refusal.
fn by_library(lent: petsivola::Lent) -> Result<(u8, u8), u16> {
    let (symbols, costs) = (lent.symbols, lent.costs);
    let (store, margins) = (lent.store, lent.margins);
    let answer = petsivola::decode(lent.code, lent.frame, symbols, costs, store, margins);
    of_library(answer).map(|outcome| (outcome.status(), outcome.iterations()))
}

/// The same by the reference decoder.
fn by_reference(lent: reference_decoder::Lent) -> Result<(u8, u8), u16> {
    let (symbols, costs) = (lent.symbols, lent.costs);
    let (store, margins) = (lent.store, lent.margins);
    let answer = reference_decoder::decode(lent.code, lent.frame, symbols, costs, store, margins);
    of_reference(answer).map(|outcome| (outcome.status(), outcome.iterations()))
}
