//! `code_line`.

mod causes;

use petsivola::code_line::Summary;
use petsivola::CodeLine;
use reference_decoder::sample::{self, Generator, Size};
use reference_decoder::{code_line, Code};

use super::decode::inputs;
use super::first_byte::{self, ByDeviations};
use super::{accepted_or_refused, class_of, of_library, of_reference, EntryPoint};
use crate::comparison::{Comparison, Difference, Inputs};
use crate::lent::Lent;
use crate::tally::{Class, Tally};

/// `code_line`.
pub const CODE_LINE: EntryPoint = EntryPoint {
    name: "code_line",
    expected,
    call,
    every,
};

const LEAST_COLUMNS: &str = "N 2";
const LEAST_CHECKS: &str = "M 1";
const LEAST_SCALE: &str = "g 1";
const LEAST_LIMIT: &str = "I 1";
const LEAST_DEGREE: &str = "degree 2";
const MOST_COLUMNS: &str = "N 256";
const MOST_CHECKS: &str = "M 128";
const MOST_SCALE: &str = "g 16";
const MOST_LIMIT: &str = "I 255";
const MOST_DEGREE: &str = "degree 32";
const MOST_EDGES: &str = "1,024 edges";
/// "A column may be in no check."
const FREE_COLUMN: &str = "a column in no check";
/// There is no message then.
const FEW_COLUMNS: &str = "N not above M";
const BOUNDS: [&str; 13] = [
    LEAST_COLUMNS,
    LEAST_CHECKS,
    LEAST_SCALE,
    LEAST_LIMIT,
    LEAST_DEGREE,
    MOST_COLUMNS,
    MOST_CHECKS,
    MOST_SCALE,
    MOST_LIMIT,
    MOST_DEGREE,
    MOST_EDGES,
    FREE_COLUMN,
    FEW_COLUMNS,
];
const LONGEST: ByDeviations = ["3,206 bytes, k 2", "3,206 bytes, k 3"];
const MOST_STORE: ByDeviations = ["k 2, a store of 41,344", "k 3, a store of 57,472"];

fn expected() -> Vec<Class> {
    let mut classes = accepted_or_refused(&[5, 6, 7, 8, 9, 10, 11]);
    let seen = first_byte::names().chain(BOUNDS);
    let seen = seen.chain(LONGEST).chain(MOST_STORE).chain(causes::NAMES);
    classes.extend(seen.map(Class::Seen));
    classes
}

/// A random call: one line in two is damaged.
fn call(generator: &mut Generator, tally: &mut Tally) -> Result<(), Difference> {
    let size = size(generator);
    let line = sample::code(generator, &size).line;
    let line = match generator.below(16) {
        0..8 => line,
        8 => inputs::line_with_edge_more(&code(&line)),
        _ => sample::damaged_code(generator, &line),
    };
    compare(generator, &line, tally)
}

/// The size of a code: small ones are many, and those at the limits few.
fn size(generator: &mut Generator) -> Size {
    match generator.below(40) {
        0 => Size::FULL,
        1 => Size::MOST_CHECKS,
        2 => Size::MOST_DEGREE,
        3..12 => Size::MEDIUM,
        _ => Size::SMALL,
    }
}

/// Lines of a few bytes and the longest ones with every first byte; a longest one cut at every place, and continued; a
/// short one with every byte in every place, and with 00 or FF in every two places, so that the order of refusals
/// matters.
fn every(tally: &mut Tally) -> Result<(), Difference> {
    let generator = &mut Generator::new(0);
    for first in first_byte::ALL {
        let accepted_first = first_byte::accepted_or_drawn(generator, first);
        for size in [Size::SMALL, Size::MOST_CHECKS] {
            let size = first_byte::with_size(accepted_first, size);
            let mut line = sample::code(generator, &size).line;
            line[0] = first;
            compare(generator, &line, tally)?;
        }
    }
    let longest = sample::code(generator, &Size::MOST_CHECKS).line;
    for length in 0..longest.len() {
        compare(generator, &longest[..length], tally)?;
    }
    compare(generator, &[&longest[..], &[2]].concat(), tally)?;
    compare(
        generator,
        &inputs::line_with_edge_more(&code(&longest)),
        tally,
    )?;

    // N = 3 and M = 2: a check on all columns, and one on two of them.
    let short = sample::bytes("02 0003 02 10 01 03 000001 000102 000203 02 000001 000201");
    for place in 0..short.len() {
        for byte in 0..=u8::MAX {
            compare(generator, &with(&short, &[(place, byte)]), tally)?;
        }
        for other in 0..place {
            for bytes in [[0x00, 0x00], [0x00, 0xFF], [0xFF, 0x00], [0xFF, 0xFF]] {
                let changes = [(other, bytes[0]), (place, bytes[1])];
                compare(generator, &with(&short, &changes), tally)?;
            }
        }
    }
    Ok(())
}

/// The line with other bytes at these places.
fn with(line: &[u8], changes: &[(usize, u8)]) -> Vec<u8> {
    let mut line = line.to_vec();
    for &(place, byte) in changes {
        line[place] = byte;
    }
    line
}

/// The code of an accepted line.
fn code(line: &[u8]) -> Code {
    code_line(line).expect("an accepted code line")
}

fn compare(generator: &mut Generator, line: &[u8], tally: &mut Tally) -> Result<(), Difference> {
    let lent = Lent::holding(generator, line);
    let lent_before = lent.clone();
    let expected = of_reference(code_line(line));

    tally.answer(class_of(&expected));
    match &expected {
        Ok(code) => see_accepted(tally, code, line.len()),
        Err(number) => {
            for cause in causes::causes(line, *number) {
                tally.seen(cause, true);
            }
        }
    }
    let mut comparison = Comparison::default();
    let summary = petsivola::code_line::summary(lent.slice());
    comparison.answers(&summary, &summary_of(&expected));
    let answer = of_library(petsivola::code_line(lent.slice()));
    comparison.answers(&answer.map(numbers), &expected.map(numbers_of_reference));
    comparison.lent("code", &lent, &lent_before);
    comparison.end("code_line", || Inputs::default().bytes("code", line))
}

/// What the library has to answer: of a refused line the number, and 0 in all other fields.
fn summary_of(answer: &Result<Code, u16>) -> Summary {
    match answer {
        Ok(code) => Summary {
            number: 0,
            first: code.first,
            columns: u16::try_from(code.n).expect("N is at most 256"),
            checks: u8::try_from(code.m).expect("M is at most 128"),
            scale: code.g,
            limit: code.limit,
            store: u32::try_from(code.store_length()).expect("a store has at most 57,472 bytes"),
        },
        Err(number) => Summary {
            number: u8::try_from(*number).expect("a number of the documents"),
            ..Summary::default()
        },
    }
}

/// First byte, g and I; N, M, and the lengths of store and frame; that of a message.
type Numbers = ([u8; 3], [usize; 4], Option<usize>);

fn numbers(code: CodeLine) -> Numbers {
    let (store, frame) = (code.store_length(), code.frame_length());
    (
        [code.first(), code.scale(), code.limit()],
        [code.columns(), code.checks(), store, frame],
        code.message_length(),
    )
}

fn numbers_of_reference(code: Code) -> Numbers {
    let (store, frame) = (code.store_length(), code.frame_length());
    (
        [code.first, code.g, code.limit],
        [code.n, code.m, store, frame],
        code.n.checked_sub(code.m).filter(|&message| message > 0),
    )
}

/// Counts what an accepted line of this length shows.
fn see_accepted(tally: &mut Tally, code: &Code, length: usize) {
    let degrees = code.checks.iter().map(|check| check.columns.len());
    let mut columns = 0..code.n;
    let is_free = |column| {
        !code
            .checks
            .iter()
            .any(|check| check.columns.contains(&column))
    };
    first_byte::see(tally, code.first);
    for (name, met) in [
        (LEAST_COLUMNS, code.n == 2),
        (LEAST_CHECKS, code.m == 1),
        (LEAST_SCALE, code.g == 1),
        (LEAST_LIMIT, code.limit == 1),
        (LEAST_DEGREE, degrees.clone().min() == Some(2)),
        (MOST_COLUMNS, code.n == 256),
        (MOST_CHECKS, code.m == 128),
        (MOST_SCALE, code.g == 16),
        (MOST_LIMIT, code.limit == 255),
        (MOST_DEGREE, degrees.max() == Some(32)),
        (MOST_EDGES, code.edges() == 1_024),
        (FREE_COLUMN, columns.any(is_free)),
        (FEW_COLUMNS, code.n <= code.m),
    ] {
        tally.seen(name, met);
    }
    let most_store = matches!(code.store_length(), 41_344 | 57_472);
    for (names, met) in [(LONGEST, length == 3_206), (MOST_STORE, most_store)] {
        first_byte::see_by_deviations(tally, code.rule(), names, met);
    }
}
