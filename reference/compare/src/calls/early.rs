//! `decode_early`.

mod seen;

use reference_decoder::sample::Generator;
use reference_decoder::{CheckNode, Code};

use super::decode::inputs::Input;
use super::{buffers, first_byte, of_library, of_reference, EntryPoint};
use crate::comparison::Difference;
use crate::tally::{Class, Tally};

/// `decode_early`, on the inputs of `decode`.
pub const EARLY: EntryPoint = EntryPoint {
    name: "decode_early",
    expected: seen::expected,
    call,
    every,
};

/// A random call.
fn call(generator: &mut Generator, tally: &mut Tally) -> Result<(), Difference> {
    let input = Input::random(generator);
    compare(generator, &input, tally)
}

/// A call with every first byte, and one with the most updates.
fn every(tally: &mut Tally) -> Result<(), Difference> {
    let mut generator = Generator::new(0);
    for first in first_byte::ALL {
        let input = Input::with_first_byte(&mut generator, first);
        compare(&mut generator, &input, tally)?;
    }
    compare(&mut generator, &most_updates(), tally)
}

/// A frame that is not found after 128 times 255 updates: the checks on two columns send costs below 16, which g = 1
/// scales to 0, and the first decisions, 1 and 1, stay.
fn most_updates() -> Input {
    let check = CheckNode {
        columns: vec![0, 1],
        weights: vec![1, 2],
    };
    let code = Code {
        first: 2,
        n: 2,
        m: 128,
        g: 1,
        limit: 255,
        checks: vec![check; 128],
    };
    Input {
        line: code.line(),
        frame: [15, 0, 15, 15].repeat(2),
        lengths: code.lengths(),
    }
}

fn compare(generator: &mut Generator, input: &Input, tally: &mut Tally) -> Result<(), Difference> {
    let (expected, filled, comparison) =
        buffers::compare(generator, input, by_library, by_reference);
    tally.answer(match expected {
        Ok((status, updates)) => Class::of_outcome(status, updates),
        Err(number) => Class::Refused(number),
    });
    seen::see(tally, input, expected, &filled);
    comparison.end("decode_early", || input.inputs())
}

/// The library's decoding: status and updates, or the refusal.
fn by_library(lent: petsivola::Lent) -> Result<(u8, u16), u16> {
    let (symbols, costs) = (lent.symbols, lent.costs);
    let (store, margins) = (lent.store, lent.margins);
    let answer = petsivola::decode_early(lent.code, lent.frame, symbols, costs, store, margins);
    of_library(answer).map(|stopped| (stopped.status(), stopped.updates()))
}

/// The same by the reference decoder.
fn by_reference(lent: reference_decoder::Lent) -> Result<(u8, u16), u16> {
    let (symbols, costs) = (lent.symbols, lent.costs);
    let (store, margins) = (lent.store, lent.margins);
    let (code, frame) = (lent.code, lent.frame);
    let answer = reference_decoder::decode_early(code, frame, symbols, costs, store, margins);
    of_reference(answer).map(|stopped| (stopped.status(), stopped.updates()))
}
