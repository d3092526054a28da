//! The program `decode` against the reference decoder's program: whole inputs, and every printed
//! byte.

mod inputs;
mod program;

use std::io::{self, BufReader};

use reference_decoder::code_line;
use reference_decoder::program::{run, INPUT_LIMIT};
use reference_decoder::sample::{Generator, Size};

use crate::comparison::{Difference, Inputs};
use crate::tally::{Class, Tally};

pub use program::Program;

/// A tally for the program; it counts printed lines.
pub fn tally() -> Tally {
    let mut expected = vec![Class::FoundAtStart, Class::FoundLater, Class::NotFound];
    // The program's own buffers are long enough, so 2, 3, 4 and 19 are never printed.
    expected.extend((5..=15).map(Class::Refused));
    expected.extend([LEAST_COLUMNS, MOST_COLUMNS].map(Class::Seen));
    expected.extend(RULES.map(Class::Seen));
    Tally::new("the program decode", expected)
}

const LEAST_COLUMNS: &str = "N 2";
const MOST_COLUMNS: &str = "N 256";
/// An input with an accepted code line, by the high digit of its first byte.
const RULES: [&str; 4] = ["k 2", "k 2, Min-Max", "k 3", "k 3, Min-Max"];

/// Compares the program on document 01's example, on checks of two columns, on every first byte and on
/// inputs made for one rule each.
///
/// # Errors
///
/// The first difference.
pub fn compare_chosen(program: &Program, tally: &mut Tally) -> Result<(), Difference> {
    let mut generator = Generator::new(0);
    for input in inputs::chosen() {
        compare(program, &input, &mut generator, tally)?;
    }
    Ok(())
}

/// Compares the program on random inputs, `small` of them of small codes and a few of larger ones
/// and at the limits; the same seed makes the same ones.
///
/// # Errors
///
/// The first difference.
pub fn compare_random(
    program: &Program,
    seed: u64,
    small: usize,
    tally: &mut Tally,
) -> Result<(), Difference> {
    let mut generator = Generator::new(seed);
    let few = small.div_ceil(500);
    let sizes = [
        (Size::SMALL, small, 12),
        (Size::MEDIUM, 4 * few, 4),
        (Size::MOST_CHECKS, few, 3),
        (Size::MOST_DEGREE, few, 2),
    ];
    for (size, count, frames) in sizes {
        for _ in 0..count {
            let input = inputs::random(&mut generator, &size, frames);
            compare(program, &input, &mut generator, tally)?;
        }
    }
    Ok(())
}

/// Compares the program on an input that is longer than it may read: "The program reads at most
/// 4,294,967,295 bytes and takes the input as ended there." This takes some seconds.
///
/// # Errors
///
/// A difference.
pub fn compare_input_limit(program: &Program, tally: &mut Tally) -> Result<(), Difference> {
    let printed = printed(program.output(inputs::past_the_limit()))?;
    let mut expected = Vec::new();
    let input = BufReader::with_capacity(1 << 16, inputs::past_the_limit());
    run(input, &mut expected, INPUT_LIMIT).expect("the input and a vector make no error");
    count(&expected, tally);
    if printed == expected {
        Ok(())
    } else {
        let name = "the program decode, on the input past the limit,";
        Err(differs(name, &printed, &expected, Inputs::default()))
    }
}

/// Compares the program on one input, which it gets in pieces.
fn compare(
    program: &Program,
    input: &[u8],
    generator: &mut Generator,
    tally: &mut Tally,
) -> Result<(), Difference> {
    let expected = reference_decoder::program(input);
    count(&expected, tally);
    if let Some(first) = first_byte(input) {
        tally.seen(RULES[usize::from(first >> 4)], true);
    }
    let printed = printed(program.output(inputs::in_pieces(input, generator)))?;
    if printed == expected {
        Ok(())
    } else {
        let inputs = Inputs::default().bytes("input, as the bytes of its text,", input);
        Err(differs("the program decode", &printed, &expected, inputs))
    }
}

/// The first byte of an input's code line, where it is accepted.
fn first_byte(input: &[u8]) -> Option<u8> {
    let text = input.split(|&byte| byte == b'\n').next()?;
    let mut bytes = vec![0; text.len() / 2];
    let length = reference_decoder::line(text, &mut bytes).ok()?;
    let code = code_line(&bytes[..length]).ok()?;
    Some(code.first)
}

/// What the program printed.
fn printed(output: io::Result<Vec<u8>>) -> Result<Vec<u8>, Difference> {
    output.map_err(|error| Difference::new(format!("the program decode: {error}")))
}

/// The first printed line that differs.
fn differs(name: &str, printed: &[u8], expected: &[u8], inputs: Inputs) -> Difference {
    let lines = |output: &[u8]| -> Vec<String> {
        let text = String::from_utf8_lossy(output);
        text.split_inclusive('\n').map(String::from).collect()
    };
    let (printed, expected) = (lines(printed), lines(expected));
    let most = printed.len().max(expected.len());
    let place = (0..most).find(|&place| printed.get(place) != expected.get(place));
    let place = place.unwrap_or(most);
    Difference::new(format!(
        "{name} prints {:?} as line {place}, the reference decoder {:?}\n  on{inputs}",
        printed.get(place),
        expected.get(place),
    ))
}

/// Counts the printed lines: "Each frame gives one line: status, t, then the symbols", "A refused
/// line prints its number as such a byte (12 as 0C) and 00 only".
fn count(output: &[u8], tally: &mut Tally) {
    for text in output.split_inclusive(|&byte| byte == b'\n') {
        let mut bytes = vec![0; text.len() / 2];
        let read = reference_decoder::line(&text[..text.len() - 1], &mut bytes);
        read.expect("a printed line is hexadecimal");
        tally.answer(match bytes[0] {
            status @ 0..=1 => Class::of_outcome(status, bytes[1]),
            number => Class::Refused(u16::from(number)),
        });
        // A refused line has two bytes.
        tally.seen(LEAST_COLUMNS, bytes.len() == 2 + 2);
        tally.seen(MOST_COLUMNS, bytes.len() == 2 + 256);
    }
}
