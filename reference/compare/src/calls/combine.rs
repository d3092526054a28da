//! `combine`.

mod seen;

use reference_decoder::check::accept_costs;
use reference_decoder::sample::{self, Generator, Size};
use reference_decoder::{code_line, Code};

use super::decode::inputs;
use super::lending::Lending;
use super::{class_of, first_byte, of_library, of_reference, EntryPoint};
use crate::comparison::{Comparison, Difference, Inputs};
use crate::lent::{length_around, length_enough};
use crate::tally::Tally;

/// `combine`.
pub const COMBINE: EntryPoint = EntryPoint {
    name: "combine",
    expected: seen::expected,
    call,
    every,
};

/// A random call.
fn call(generator: &mut Generator, tally: &mut Tally) -> Result<(), Difference> {
    let size = size(generator);
    let (code, mut input) = Input::accepted(generator, &size);
    input.damage_some(generator, &code);
    compare(generator, &input, tally)
}

/// A call with every first byte.
fn every(tally: &mut Tally) -> Result<(), Difference> {
    let mut generator = Generator::new(0);
    for first in first_byte::ALL {
        let accepted_first = first_byte::accepted_or_drawn(&mut generator, first);
        let size = first_byte::small_codes(accepted_first);
        let (_, mut input) = Input::accepted(&mut generator, &size);
        input.line[0] = first;
        compare(&mut generator, &input, tally)?;
    }
    Ok(())
}

/// The size of a code: small ones are many, and those at the limits few.
fn size(generator: &mut Generator) -> Size {
    match generator.below(80) {
        0 => Size::FULL,
        1 => Size::MOST_CHECKS,
        2 => Size::MOST_DEGREE,
        3..20 => Size::MEDIUM,
        _ => Size::SMALL,
    }
}

/// A code line, two frames, and the length of the output buffer.
struct Input {
    line: Vec<u8>,
    frames: [Vec<u8>; 2],
    length: usize,
    /// The refusal of each frame, 12 or 13, under the code line as it was before it was damaged.
    faults: [Option<u8>; 2],
}

impl Input {
    /// An accepted input of the size, with its code: frames near one word or arbitrary ones, now and then the second
    /// one of zeros or the same as the first.
    fn accepted(generator: &mut Generator, size: &Size) -> (Code, Input) {
        let sample = sample::code(generator, size);
        let code = code_line(&sample.line).expect("an accepted code line");
        let first = inputs::frame(generator, &sample, &code);
        let second = match generator.below(16) {
            0 => vec![0; first.len()],
            1 => first.clone(),
            _ => inputs::frame(generator, &sample, &code),
        };
        let input = Input {
            frames: [first, second],
            length: length_enough(generator, code.frame_length()),
            line: sample.line,
            faults: [None; 2],
        };
        (code, input)
    }

    /// Damages each part now and then, several at once too, so that the order of refusals matters.
    fn damage_some(&mut self, generator: &mut Generator, code: &Code) {
        if generator.once_in(5) {
            self.line = sample::damaged_code(generator, &self.line);
        }
        for frame in &mut self.frames {
            if generator.once_in(4) {
                *frame = sample::damaged_frame(generator, code.field().size(), frame);
            }
        }
        if generator.once_in(3) {
            self.length = length_around(generator, code.frame_length());
        }
        self.faults = self.faults_under(code);
    }

    /// The refusal of each frame under a code, 12 or 13.
    fn faults_under(&self, code: &Code) -> [Option<u8>; 2] {
        let fault = |frame: &Vec<u8>| accept_costs(code.field(), code.n, frame).err();
        let faults = self.frames.each_ref().map(fault);
        faults.map(|fault| fault.map(|refusal| refusal.number()))
    }
}

fn compare(generator: &mut Generator, input: &Input, tally: &mut Tally) -> Result<(), Difference> {
    let [first, second] = &input.frames;
    let mut lent = Lending::new(generator, [&input.line, first, second], input.length);
    let mut lent_expected = lent.clone();
    let expected = lent_expected.to(|[code, first, second], out| {
        of_reference(reference_decoder::combine(code, first, second, out))
    });

    tally.answer(class_of(&expected));
    seen::see(tally, input, &expected);
    let mut comparison = Comparison::default();
    // The second call is in the used buffer and gives the same: nothing was left behind.
    for _ in 0..2 {
        let answer = lent.to(|[code, first, second], out| {
            of_library(petsivola::combine(code, first, second, out))
        });
        comparison.answers(&answer, &expected);
        let names = (["code", "first frame", "second frame"], "out");
        lent.compare(&mut comparison, names, &lent_expected);
    }
    comparison.end("combine", || {
        Inputs::default()
            .bytes("code", &input.line)
            .bytes("first frame", first)
            .bytes("second frame", second)
            .number("out length", input.length)
    })
}
