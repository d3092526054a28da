//! `product`.

use reference_decoder::sample::Generator;

use super::{accepted_or_refused, class_of, of_library, of_reference, EntryPoint};
use crate::comparison::{Comparison, Difference, Inputs};
use crate::tally::Tally;

/// `product`.
pub const PRODUCT: EntryPoint = EntryPoint {
    name: "product",
    expected: || accepted_or_refused(&[6, 11]),
    call,
    every: every_input,
};

fn call(generator: &mut Generator, tally: &mut Tally) -> Result<(), Difference> {
    let p = if generator.once_in(8) {
        generator.byte(0..=255)
    } else {
        generator.byte(2..=6)
    };
    let greatest = if generator.once_in(4) {
        255
    } else {
        63 >> (6 - p.clamp(2, 6))
    };
    let (a, b) = (generator.byte(0..=greatest), generator.byte(0..=greatest));
    compare(p, a, b, tally)
}

/// Compares the product on every input that there is, 2^24 of them.
fn every_input(tally: &mut Tally) -> Result<(), Difference> {
    for p in 0..=255 {
        for a in 0..=255 {
            for b in 0..=255 {
                compare(p, a, b, tally)?;
            }
        }
    }
    Ok(())
}

fn compare(p: u8, a: u8, b: u8, tally: &mut Tally) -> Result<(), Difference> {
    let expected = of_reference(reference_decoder::product(p, a, b));
    let answer = of_library(petsivola::product(p, a, b));
    tally.answer(class_of(&expected));
    let mut comparison = Comparison::default();
    comparison.answers(&answer, &expected);
    comparison.end("product", || {
        let numbers = [("p", p), ("a", a), ("b", b)];
        numbers
            .iter()
            .fold(Inputs::default(), |inputs, (name, number)| {
                inputs.number(name, usize::from(*number))
            })
    })
}
