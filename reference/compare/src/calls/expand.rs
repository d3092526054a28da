//! `expand` and `display`, which read a record. Document 02, §11: "Both refuse as expansion does; the display's buffer
//! is d bytes, refusal 2."

mod causes;

use std::collections::BTreeSet;

use reference_decoder::record;
use reference_decoder::sample::{self, CheckSample, Generator, Style};
use reference_decoder::Rule;

use super::first_byte::{self, ByDeviations};
use super::lending::Lending;
use super::{
    accepted_or_refused, class_of, degrees, of_library, of_reference, see_refused, EntryPoint,
    REFUSED_DEGREES,
};
use crate::comparison::{Comparison, Difference, Inputs};
use crate::lent::{length_around, length_enough};
use crate::tally::{Class, Tally};
use causes::{causes, Cause};

/// `expand`.
pub const EXPAND: EntryPoint = EntryPoint {
    name: OF_EXPAND.name,
    expected,
    call: |generator, tally| call(&OF_EXPAND, generator, tally),
    every: |tally| every(&OF_EXPAND, tally),
};

/// `display`.
pub const DISPLAY: EntryPoint = EntryPoint {
    name: OF_DISPLAY.name,
    expected,
    call: |generator, tally| call(&OF_DISPLAY, generator, tally),
    every: |tally| every(&OF_DISPLAY, tally),
};

/// A call on a first byte, weights, a record and a buffer.
type Call = fn(u8, &[u8], &[u8], &mut [u8]) -> Result<usize, u16>;

/// The calls that are made on each input.
struct Sides {
    name: &'static str,
    library: Call,
    reference: Call,
    /// How many bytes an accepted one writes.
    needed: fn(&CheckSample) -> usize,
}

const OF_EXPAND: Sides = Sides {
    name: "expand",
    library: |first, weights, record, out| {
        of_library(petsivola::expand(first, weights, record, out))
    },
    reference: |first, weights, record, out| {
        of_reference(reference_decoder::expand(first, weights, record, out))
    },
    needed: |input| input.degree() * input.q(),
};

const OF_DISPLAY: Sides = Sides {
    name: "display",
    library: |first, weights, record, out| {
        of_library(petsivola::display(first, weights, record, out))
    },
    reference: |first, weights, record, out| {
        of_reference(reference_decoder::display(first, weights, record, out))
    },
    needed: CheckSample::degree,
};

const DEGREE_2: ByDeviations = ["degree 2, k 2", "degree 2, k 3"];
const DEGREE_32: ByDeviations = ["degree 32, k 2", "degree 32, k 3"];
/// No check writes such a record.
const BOTH_COLUMNS: &str = "degree 2, both columns in the pairs of an a";
const THREE_PAIRS: &str = "3 pairs used";
/// Division by the weight makes another symbol of such a shift.
const DIVIDED: &str = "a shift not 0 with a weight not 1";
const EXACT_BUFFER: &str = "a buffer of its length";
const BUFFER_SHORT_BY_ONE: &str = "2 by one byte of room";
const OTHERS: [&str; 5] = [
    BOTH_COLUMNS,
    THREE_PAIRS,
    DIVIDED,
    EXACT_BUFFER,
    BUFFER_SHORT_BY_ONE,
];

const MISSING_BYTE: ByDeviations = ["k 2, 16 by a byte missing", "k 3, 16 by a byte missing"];
const BYTE_LEFT_OVER: ByDeviations = ["k 2, 16 by a byte left over", "k 3, 16 by a byte left over"];
/// Document 02, §3: "4 and 16 use the new length".
const OTHER_LENGTH: ByDeviations = [
    "k 2, 16 by the length for k 3",
    "k 3, 16 by the length for k 2",
];

fn expected() -> Vec<Class> {
    let mut classes = accepted_or_refused(&[2, 6, 9, 11, 16]);
    let by_deviations = [
        DEGREE_2,
        DEGREE_32,
        MISSING_BYTE,
        BYTE_LEFT_OVER,
        OTHER_LENGTH,
    ];
    // Each cause of 16 must be met as the only one.
    let by_deviations = by_deviations
        .into_iter()
        .chain(Cause::ALL.map(Cause::names));
    let seen = OTHERS.into_iter().chain(REFUSED_DEGREES);
    let seen = seen
        .chain(first_byte::names())
        .chain(by_deviations.flatten());
    classes.extend(seen.map(Class::Seen));
    classes
}

/// Calls on a random input.
fn call(sides: &Sides, generator: &mut Generator, tally: &mut Tally) -> Result<(), Difference> {
    let first = first_byte::drawn(generator);
    let (mut input, mut record) = accepted(generator, first);
    let (rule, degree) = (input.rule(), input.degree());
    let needed = (sides.needed)(&input);
    if generator.once_in(2) {
        record = sample::damaged_record(generator, rule, degree, &record);
    }
    if generator.once_in(4) {
        input = sample::damaged_check(generator, &input);
    }
    let length = if generator.once_in(2) {
        length_around(generator, needed)
    } else {
        length_enough(generator, needed)
    };
    let lent = Lending::new(generator, [&input.weights, &record], length);
    compare(sides, lent, &input, &record, tally)
}

/// Calls with every first byte.
fn every(sides: &Sides, tally: &mut Tally) -> Result<(), Difference> {
    let mut generator = Generator::new(0);
    for first in first_byte::ALL {
        let accepted_first = first_byte::accepted_or_drawn(&mut generator, first);
        let (mut input, record) = accepted(&mut generator, accepted_first);
        let length = (sides.needed)(&input);
        input.first = first;
        let lent = Lending::new(&mut generator, [&input.weights, &record], length);
        compare(sides, lent, &input, &record, tally)?;
    }
    Ok(())
}

/// Makes the calls with the slices as they are lent to both, and compares them.
fn compare(
    sides: &Sides,
    mut lent: Lending<2>,
    input: &CheckSample,
    record: &[u8],
    tally: &mut Tally,
) -> Result<(), Difference> {
    let (first, length) = (input.first, lent.filled().len());
    let mut lent_expected = lent.clone();
    let reference = sides.reference;
    let expected =
        lent_expected.to(|[weights, record], out| reference(first, weights, record, out));
    let answer = lent.to(|[weights, record], out| (sides.library)(first, weights, record, out));

    tally.answer(class_of(&expected));
    see_refused(tally, input.degree(), expected == Err(9));
    match expected {
        Ok(written) => {
            see(tally, input, record);
            tally.seen(EXACT_BUFFER, length == written);
        }
        Err(16) => see_causes(tally, input, record),
        Err(2) => tally.seen(BUFFER_SHORT_BY_ONE, length + 1 == (sides.needed)(input)),
        Err(_) => {}
    }
    let mut comparison = Comparison::default();
    comparison.answers(&answer, &expected);
    let names = (["weights", "record"], "out");
    lent.compare(&mut comparison, names, &lent_expected);
    comparison.end(sides.name, || {
        Inputs::default()
            .number("first byte", usize::from(first))
            .bytes("weights", &input.weights)
            .bytes("record", record)
            .number("out length", length)
    })
}

/// Accepted weights (the sample has no costs) and a record of accepted form: written by a check, or
/// arbitrary.
fn accepted(generator: &mut Generator, first: u8) -> (CheckSample, Vec<u8>) {
    let degree = degrees(generator);
    let style = generator.one_of(&Style::ALL);
    let mut sample = sample::check(generator, first, degree, style);
    let (rule, degree) = (sample.rule(), sample.degree());
    let record = if generator.once_in(8) {
        let mut record = vec![0; record::length(rule, degree)];
        reference_decoder::check(first, &sample.weights, &sample.costs, &mut record)
            .expect("an accepted check");
        record
    } else {
        sample::record(generator, first, degree)
    };
    sample.costs.clear();
    (sample, record)
}

/// Counts what an accepted record shows.
fn see(tally: &mut Tally, input: &CheckSample, record: &[u8]) {
    let (rule, degree) = (input.rule(), input.degree());
    first_byte::see(tally, input.first);
    first_byte::see_by_deviations(tally, rule, DEGREE_2, degree == 2);
    first_byte::see_by_deviations(tally, rule, DEGREE_32, degree == 32);
    let entries = record[degree..].chunks_exact(1 + 2 * rule.deviations());
    let used = |entry: &[u8]| entry[1..].iter().step_by(2).filter(|&&n| n != 0xFF).count();
    let most = entries.map(used).max();
    tally.seen(BOTH_COLUMNS, degree == 2 && most == Some(2));
    tally.seen(THREE_PAIRS, most == Some(3));
    let mut shifts = record.iter().zip(&input.weights);
    let divided = shifts.any(|(&shift, &weight)| shift != 0 && weight != 1);
    tally.seen(DIVIDED, divided);
}

/// Counts why a record was refused.
fn see_causes(tally: &mut Tally, input: &CheckSample, record: &[u8]) {
    let (rule, degree) = (input.rule(), input.degree());
    let found = causes(rule, degree, record);
    for cause in Cause::ALL {
        let alone = found == BTreeSet::from([cause]);
        first_byte::see_by_deviations(tally, rule, cause.names(), alone);
    }
    let other = Rule::new(first_byte::with_other_deviations(input.first));
    let other = other.map(|other| record::length(other, degree));
    let needed = record::length(rule, degree);
    for (names, met) in [
        (MISSING_BYTE, record.len() + 1 == needed),
        (BYTE_LEFT_OVER, record.len() == needed + 1),
        (OTHER_LENGTH, other == Ok(record.len())),
    ] {
        first_byte::see_by_deviations(tally, rule, names, met);
    }
}
