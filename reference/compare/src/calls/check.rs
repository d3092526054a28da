//! `check` and `sweep`. Document 02, §7: the trellis sweep engine "writes the same record for each accepted
//! check, and refuses the same ones with the same numbers."

mod seen;

use reference_decoder::record;
use reference_decoder::sample::{self, CheckSample, Generator, Style};
use reference_decoder::Rule;

use super::lending::Lending;
use super::{class_of, degrees, first_byte, of_library, of_reference, see_refused, EntryPoint};
use crate::comparison::{Comparison, Difference, Inputs};
use crate::lent::{length_around, length_enough};
use crate::tally::Tally;

/// `check`.
pub const CHECK: EntryPoint = EntryPoint {
    name: "check",
    expected: seen::expected,
    call: |generator, tally| call(&OF_CHECK, generator, tally),
    every: |tally| every(&OF_CHECK, tally),
};

/// `sweep`, and beside it `check` on the same inputs. The same seed makes the inputs that it makes for
/// `check`.
pub const SWEEP: EntryPoint = EntryPoint {
    name: "sweep",
    expected: seen::expected,
    call: |generator, tally| call(&OF_SWEEP, generator, tally),
    every: |tally| every(&OF_SWEEP, tally),
};

/// A call on a first byte, weights, costs and a record buffer.
type Call = fn(u8, &[u8], &[u8], &mut [u8]) -> Result<usize, u16>;

/// The calls that are made on each input.
struct Sides {
    /// The library's, each with its name; all must answer and leave what the reference decoder's does.
    library: &'static [(&'static str, Call)],
    reference: Call,
}

const OF_CHECK: Sides = Sides {
    library: &[("check", library_check)],
    reference: |first, weights, costs, record| {
        of_reference(reference_decoder::check(first, weights, costs, record))
    },
};

const OF_SWEEP: Sides = Sides {
    library: &[
        ("sweep", library_sweep),
        ("check beside sweep", library_check),
    ],
    reference: |first, weights, costs, record| {
        of_reference(reference_decoder::sweep(first, weights, costs, record))
    },
};

fn library_check(first: u8, weights: &[u8], costs: &[u8], record: &mut [u8]) -> Result<usize, u16> {
    of_library(petsivola::check(first, weights, costs, record))
}

fn library_sweep(first: u8, weights: &[u8], costs: &[u8], record: &mut [u8]) -> Result<usize, u16> {
    of_library(petsivola::sweep(first, weights, costs, record))
}

/// Calls on a random input.
fn call(sides: &Sides, generator: &mut Generator, tally: &mut Tally) -> Result<(), Difference> {
    let first = first_byte::drawn(generator);
    let accepted = accepted(generator, first);
    let length = room(generator, &accepted);
    let input = if generator.once_in(2) {
        sample::damaged_check(generator, &accepted)
    } else {
        accepted
    };
    let lent = Lending::new(generator, [&input.weights, &input.costs], length);
    compare(sides, &lent, &input, tally)
}

/// Calls with every first byte.
fn every(sides: &Sides, tally: &mut Tally) -> Result<(), Difference> {
    let mut generator = Generator::new(0);
    for first in first_byte::ALL {
        let accepted_first = first_byte::accepted_or_drawn(&mut generator, first);
        let mut input = accepted(&mut generator, accepted_first);
        let length = record::length(input.rule(), input.degree());
        input.first = first;
        let lent = Lending::new(&mut generator, [&input.weights, &input.costs], length);
        compare(sides, &lent, &input, tally)?;
    }
    Ok(())
}

/// The length of a record buffer: enough, or around what is needed with either k.
fn room(generator: &mut Generator, input: &CheckSample) -> usize {
    let [needed, other] = lengths(input);
    match generator.below(8) {
        0..4 => length_enough(generator, needed),
        4..7 => length_around(generator, needed),
        _ => length_around(generator, other),
    }
}

/// The lengths of an accepted check's record, and of that with the other k.
fn lengths(input: &CheckSample) -> [usize; 2] {
    [input.first, first_byte::with_other_deviations(input.first)].map(|first| {
        let rule = Rule::new(first).expect("an accepted first byte");
        record::length(rule, input.degree())
    })
}

/// Makes the calls, each with the slices as they are lent to all, and compares them.
fn compare(
    sides: &Sides,
    lent: &Lending<2>,
    input: &CheckSample,
    tally: &mut Tally,
) -> Result<(), Difference> {
    let first = input.first;
    let lend = |call: Call| {
        let mut lent = lent.clone();
        let answer = lent.to(|[weights, costs], record| call(first, weights, costs, record));
        (answer, lent)
    };
    let (expected, lent_expected) = lend(sides.reference);
    see(tally, input, &expected, lent_expected.filled());
    for &(name, call) in sides.library {
        let (answer, lent_after) = lend(call);
        let mut comparison = Comparison::default();
        comparison.answers(&answer, &expected);
        let names = (["weights", "costs"], "record");
        lent_after.compare(&mut comparison, names, &lent_expected);
        comparison.end(name, || {
            Inputs::default()
                .number("first byte", usize::from(first))
                .bytes("weights", &input.weights)
                .bytes("costs", &input.costs)
                .number("record length", lent.filled().len())
        })?;
    }
    Ok(())
}

/// Counts an answer and what an input and its record show.
fn see(tally: &mut Tally, input: &CheckSample, answer: &Result<usize, u16>, lent: &[u8]) {
    tally.answer(class_of(answer));
    see_refused(tally, input.degree(), *answer == Err(9));
    if matches!(answer, Ok(_) | Err(4)) {
        seen::see_room(tally, input, lent.len());
    }
    if let Ok(written) = *answer {
        seen::see(tally, input, &lent[..written]);
    }
}

/// An accepted check of any size, more often than not of a degree between the limits, with all
/// columns in one style or each in its own.
fn accepted(generator: &mut Generator, first: u8) -> CheckSample {
    let degree = degrees(generator);
    let style = generator.one_of(&Style::ALL);
    let mut sample = sample::check(generator, first, degree, style);
    if generator.once_in(3) {
        let q = sample.q();
        for column in sample.costs.chunks_mut(q) {
            let style = generator.one_of(&Style::ALL);
            column.copy_from_slice(&sample::column(generator, q, style));
        }
    }
    sample
}
