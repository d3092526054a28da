//! `line`.

use reference_decoder::line::{hexadecimal, LINE_LIMIT};
use reference_decoder::sample::{self, Generator};

use super::{accepted_or_refused, class_of, of_library, of_reference, EntryPoint};
use crate::comparison::{Comparison, Difference, Inputs};
use crate::lent::{length_around, length_enough, Lent};
use crate::tally::{Class, Tally};

/// `line`.
pub const LINE: EntryPoint = EntryPoint {
    name: "line",
    expected,
    call,
    every: every_pair,
};

const EMPTY: &str = "an empty line accepted";
const LONGEST: &str = "32,768 digits accepted";
const TOO_LONG: &str = "32,769 bytes refused";

fn expected() -> Vec<Class> {
    let mut classes = accepted_or_refused(&[2, 14, 15]);
    classes.extend([EMPTY, LONGEST, TOO_LONG].map(Class::Seen));
    classes
}

fn call(generator: &mut Generator, tally: &mut Tally) -> Result<(), Difference> {
    let count = match generator.below(32) {
        0 => generator.between(LINE_LIMIT / 2 - 2..=LINE_LIMIT / 2),
        1 => 0,
        _ => generator.between(0..=200),
    };
    let mut text = hexadecimal(&generator.bytes(count));
    if generator.once_in(2) {
        text = sample::damaged_text(generator, &text);
    }
    let needed = text.len() / 2;
    let length = if generator.once_in(2) {
        length_around(generator, needed)
    } else {
        length_enough(generator, needed)
    };
    compare(generator, &text, length, tally)
}

/// Compares the line on every text of two bytes, 2^16 of them.
fn every_pair(tally: &mut Tally) -> Result<(), Difference> {
    let mut generator = Generator::new(0);
    for pair in 0..=u16::MAX {
        compare(&mut generator, &pair.to_be_bytes(), 1, tally)?;
    }
    Ok(())
}

fn compare(
    generator: &mut Generator,
    text: &[u8],
    length: usize,
    tally: &mut Tally,
) -> Result<(), Difference> {
    let text = Lent::holding(generator, text);
    let text_lent = text.clone();
    let mut out = Lent::<u8>::to_fill(generator, length);
    let mut out_expected = out.clone();
    let expected = of_reference(reference_decoder::line(
        text.slice(),
        out_expected.slice_mut(),
    ));
    let answer = of_library(petsivola::line(text_lent.slice(), out.slice_mut()));

    tally.answer(class_of(&expected));
    let bytes = text.slice().len();
    tally.seen(EMPTY, expected == Ok(0));
    tally.seen(LONGEST, expected.is_ok() && bytes == LINE_LIMIT);
    tally.seen(TOO_LONG, expected == Err(15) && bytes == LINE_LIMIT + 1);
    let mut comparison = Comparison::default();
    comparison.answers(&answer, &expected);
    comparison.lent("out", &out, &out_expected);
    comparison.lent("text", &text_lent, &text);
    comparison.end("line", || {
        Inputs::default()
            .bytes("text, as the bytes of its digits,", text.slice())
            .number("out length", length)
    })
}
