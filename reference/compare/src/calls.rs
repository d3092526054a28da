//! The entry points of the static library, each with random calls of it.

mod buffers;
mod channels;
mod check;
mod code_line;
mod combine;
mod decode;
mod early;
mod encode;
mod expand;
mod first_byte;
mod lending;
mod line;
mod product;
mod window;

use std::ops::RangeInclusive;

use reference_decoder::check::DEGREES;
use reference_decoder::sample::Generator;

use crate::comparison::Difference;
use crate::tally::{Class, Tally};

pub use channels::CHANNELS;
pub use check::{CHECK, SWEEP};
pub use code_line::CODE_LINE;
pub use combine::COMBINE;
pub use decode::DECODE;
pub use early::EARLY;
pub use encode::ENCODE;
pub use expand::{DISPLAY, EXPAND};
pub use line::LINE;
pub use product::PRODUCT;
pub use window::WINDOW;

/// Every entry point.
pub const ENTRY_POINTS: [EntryPoint; 13] = [
    PRODUCT, CHECK, SWEEP, EXPAND, DISPLAY, LINE, CODE_LINE, DECODE, EARLY, ENCODE, WINDOW,
    CHANNELS, COMBINE,
];

/// An entry point and how it is compared.
pub struct EntryPoint {
    name: &'static str,
    /// What its calls must meet.
    expected: fn() -> Vec<Class>,
    /// Makes one random call on both sides, of a window a list of writes, compares them and counts the answers.
    call: fn(&mut Generator, &mut Tally) -> Result<(), Difference>,
    /// Makes every call of some kind.
    every: fn(&mut Tally) -> Result<(), Difference>,
}

impl EntryPoint {
    /// A tally for this entry point.
    pub fn tally(&self) -> Tally {
        Tally::new(self.name, (self.expected)())
    }

    /// Makes this many random calls; the same seed makes the same ones.
    ///
    /// # Errors
    ///
    /// The first difference.
    pub fn compare_random(
        &self,
        seed: u64,
        calls: usize,
        tally: &mut Tally,
    ) -> Result<(), Difference> {
        let mut generator = Generator::new(seed);
        for _ in 0..calls {
            (self.call)(&mut generator, tally)?;
        }
        Ok(())
    }

    /// Makes the calls that are few enough to be made all: every product, every line of two bytes, a check, a
    /// sweep, an expansion, a display, a code line, a decoding, one that may stop inside an iteration, an encoding,
    /// several channels and two frames combined with every first byte, every byte in every place of a code line and one
    /// cut at every place, the most updates, every write to a window, and every count of channels.
    ///
    /// # Errors
    ///
    /// The first difference.
    pub fn compare_every(&self, tally: &mut Tally) -> Result<(), Difference> {
        (self.every)(tally)
    }
}

/// The degrees from which that of an accepted check is taken: one of 2, 3 and 32, or more often all.
fn degrees(generator: &mut Generator) -> RangeInclusive<usize> {
    match generator.below(10) {
        0 => 2..=2,
        1 => 3..=3,
        2 => 32..=32,
        _ => DEGREES,
    }
}

/// The degrees next to the accepted ones, each of which must be refused by 9.
const REFUSED_DEGREES: [&str; 2] = ["degree 1 refused", "degree 33 refused"];

/// Counts a refused degree that is next to an accepted one.
fn see_refused(tally: &mut Tally, degree: usize, refused: bool) {
    for (name, beside) in REFUSED_DEGREES.into_iter().zip([1, 33]) {
        tally.seen(name, refused && degree == beside);
    }
}

/// The classes of an entry point without an outcome: accepted, and refused by these numbers.
fn accepted_or_refused(numbers: &[u16]) -> Vec<Class> {
    let refused = numbers.iter().map(|&number| Class::Refused(number));
    [Class::Accepted].into_iter().chain(refused).collect()
}

/// The class of an answer without an outcome.
fn class_of<T>(answer: &Result<T, u16>) -> Class {
    match answer {
        Ok(_) => Class::Accepted,
        Err(number) => Class::Refused(*number),
    }
}

/// The library's answer, with document 01's number in the place of its refusal.
fn of_library<T>(answer: Result<T, petsivola::Refusal>) -> Result<T, u16> {
    answer.map_err(petsivola::Refusal::number)
}

/// The reference decoder's answer, with document 01's number in the place of its refusal.
fn of_reference<T>(answer: Result<T, reference_decoder::Refusal>) -> Result<T, u16> {
    answer.map_err(|refusal| u16::from(refusal.number()))
}
