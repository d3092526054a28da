//! The inputs of decodings.

use reference_decoder::check::accept_costs;
use reference_decoder::sample::{self, CodeSample, Generator, Size, Style};
use reference_decoder::{code_line, Code, Join};

use crate::calls::first_byte;
use crate::comparison::Inputs;
use crate::lent::{length_around, length_enough};

/// Codes of a few columns that may take every iteration there can be.
pub const LONG: Size = Size {
    p: 2..=3,
    k: 2..=3,
    join: Join::BOTH,
    columns: 6..=10,
    checks: 3..=6,
    degree: 2..=5,
    limit: 250..=255,
};

/// Codes of every size, with few iterations: the reference decoder takes up to a second for each.
pub const WIDE: Size = Size {
    limit: 1..=2,
    ..Size::FULL
};

/// The size of a code, and whether the input is to be refused. Small codes are many, and those at
/// the limits are mostly refused, since the reference decoder answers these at once.
fn size(generator: &mut Generator) -> (Size, bool) {
    match generator.below(2_000) {
        0..2 => (Size::MOST_CHECKS, false),
        2 => (Size::MOST_DEGREE, false),
        3..12 => (WIDE, false),
        12..60 => (Size::MEDIUM, false),
        60..120 => (LONG, false),
        120..150 => (Size::MOST_CHECKS, true),
        150..180 => (Size::MOST_DEGREE, true),
        _ => (Size::SMALL, false),
    }
}

/// A frame near a word of the code, or now and then an arbitrary one.
pub fn frame(generator: &mut Generator, sample: &CodeSample, code: &Code) -> Vec<u8> {
    let style = generator.one_of(&Style::ALL);
    if generator.once_in(3) {
        sample::frame(generator, code, style)
    } else {
        let wrong = generator.between(0..=code.n / 4 + 1);
        sample::noisy_frame(generator, code, &sample.word, wrong, style)
    }
}

/// The same code with the other k.
pub fn with_other_deviations(code: &Code) -> Code {
    Code {
        first: first_byte::with_other_deviations(code.first),
        ..code.clone()
    }
}

/// The line of a code whose last check has one edge more. With 1,024 edges before, "the edge total passes 1,024".
pub fn line_with_edge_more(code: &Code) -> Vec<u8> {
    let mut line = code.line();
    let degree = code.checks.last().map_or(0, |check| check.weights.len());
    let degree_place = line.len() - 3 * degree - 1;
    line[degree_place] += 1;
    line.extend([0, 0, 1]);
    line
}

/// A code line, a frame or the frames of several channels, and the lengths of the symbol buffer, the cost buffer,
/// the store and the margin buffer.
pub struct Input {
    pub line: Vec<u8>,
    pub frame: Vec<u8>,
    pub lengths: [usize; 4],
}

impl Input {
    /// An accepted input of the size, with its code.
    pub fn accepted(generator: &mut Generator, size: &Size) -> (Code, Input) {
        let sample = sample::code(generator, size);
        let code = code_line(&sample.line).expect("an accepted code line");
        let input = Input {
            frame: frame(generator, &sample, &code),
            lengths: code
                .lengths()
                .map(|needed| length_enough(generator, needed)),
            line: sample.line,
        };
        (code, input)
    }

    /// Any input: of any size, and accepted or damaged.
    pub fn random(generator: &mut Generator) -> Input {
        let (size, refused) = size(generator);
        let (code, mut input) = Input::accepted(generator, &size);
        if refused {
            input.damage_one(generator, &code);
        } else {
            input.damage_some(generator, &code);
        }
        input
    }

    /// An input in which nothing but the first byte, this one, may be refused.
    pub fn with_first_byte(generator: &mut Generator, first: u8) -> Input {
        let accepted_first = first_byte::accepted_or_drawn(generator, first);
        let size = first_byte::small_codes(accepted_first);
        let (_, mut input) = Input::accepted(generator, &size);
        input.line[0] = first;
        input
    }

    /// All that a call is given, so that it can be made again.
    pub fn inputs(&self) -> Inputs {
        let [symbols, costs, store, margins] = self.lengths;
        Inputs::default()
            .bytes("code", &self.line)
            .bytes("frame", &self.frame)
            .number("symbol buffer length", symbols)
            .number("cost buffer length", costs)
            .number("store length", store)
            .number("margin buffer length", margins)
    }

    /// Damages each part now and then, several at once too, so that the order of refusals matters.
    pub fn damage_some(&mut self, generator: &mut Generator, code: &Code) {
        if generator.once_in(5) {
            self.line = sample::damaged_code(generator, &self.line);
        }
        if generator.once_in(5) {
            self.frame = sample::damaged_frame(generator, code.field().size(), &self.frame);
        }
        for (length, needed) in self.lengths.iter_mut().zip(code.lengths()) {
            if generator.once_in(5) {
                *length = length_around(generator, needed);
            }
        }
        if generator.once_in(20) {
            self.lengths[2] = length_around(generator, with_other_deviations(code).store_length());
        }
    }

    /// Damages one part so that the input is refused.
    pub fn damage_one(&mut self, generator: &mut Generator, code: &Code) {
        match generator.below(8) {
            0 => self.line = line_with_edge_more(code),
            1 => {
                let buffer = generator.below(4);
                self.lengths[buffer] = code.lengths()[buffer] - 1;
            }
            2..5 => {
                while accept_costs(code.field(), code.n, &self.frame).is_ok() {
                    self.frame = sample::damaged_frame(generator, code.field().size(), &self.frame);
                }
            }
            _ => {
                while code_line(&self.line).is_ok() {
                    self.line = sample::damaged_code(generator, &self.line);
                }
            }
        }
    }
}
