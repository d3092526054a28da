//! The inputs of calls with several channels.

use reference_decoder::sample::{self, CodeSample, Generator, Size};
use reference_decoder::{code_line, Code};

use crate::calls::decode::inputs::{self, Input, WIDE};
use crate::comparison::Inputs;
use crate::lent::{length_around, length_enough};

/// From what the allowance is drawn.
#[derive(Clone, Copy, Debug, PartialEq, Eq)]
pub enum Allowances {
    /// Any number, up to the greatest.
    Any,
    /// A few iterations: at the limits the reference decoder takes up to a second for each.
    Few,
}

/// The size of a code, and its allowances. Small codes are many.
pub fn size(generator: &mut Generator) -> (Size, Allowances) {
    match generator.below(10_000) {
        0..4 => (Size::MOST_CHECKS, Allowances::Few),
        4..6 => (Size::MOST_DEGREE, Allowances::Few),
        6..12 => (WIDE, Allowances::Few),
        12..250 => (Size::MEDIUM, Allowances::Few),
        250..290 => (Size::MEDIUM, Allowances::Any),
        290..360 => (inputs::LONG, Allowances::Any),
        _ => (Size::SMALL, Allowances::Any),
    }
}

/// The numbers and the slices of a call; the input's frame is all frames end to end.
pub struct Call {
    pub count: u8,
    pub allowance: u32,
    pub input: Input,
}

impl Call {
    /// An accepted call of the size, with its code. Now and then a channel's frame has a column without a 0.
    pub fn accepted(
        generator: &mut Generator,
        size: &Size,
        allowances: Allowances,
    ) -> (Code, Call) {
        let sample = sample::code(generator, size);
        let code = code_line(&sample.line).expect("an accepted code line");
        let count = generator.byte(1..=8);
        let mut call = Call::near(generator, &sample, &code, count);
        call.allowance = match allowances {
            Allowances::Any => any_allowance(generator, count, code.limit),
            Allowances::Few => u32::from(generator.byte(1..=5)),
        };
        (code, call)
    }

    /// An accepted call under a code with so many channels and the greatest allowance; the frames are near the word 0.
    pub fn of(generator: &mut Generator, code: &Code, count: u8) -> Call {
        let sample = CodeSample {
            line: code.line(),
            word: vec![0; code.n],
        };
        Call::near(generator, &sample, code, count)
    }

    /// The same near a word of the code.
    fn near(generator: &mut Generator, sample: &CodeSample, code: &Code, count: u8) -> Call {
        let channels = usize::from(count);
        let frames = (0..channels).flat_map(|_| channel_frame(generator, sample, code));
        Call {
            count,
            allowance: u32::MAX,
            input: Input {
                frame: frames.collect(),
                lengths: code
                    .lengths()
                    .map(|one| length_enough(generator, channels * one)),
                line: sample.line.clone(),
            },
        }
    }

    /// Damages each part now and then, several at once too, so that the order of refusals matters.
    pub fn damage_some(&mut self, generator: &mut Generator, code: &Code) {
        let channels = usize::from(self.count);
        let input = &mut self.input;
        if generator.once_in(5) {
            input.line = sample::damaged_code(generator, &input.line);
        }
        if generator.once_in(6) {
            input.frame = sample::damaged_frame(generator, code.field().size(), &input.frame);
        }
        if generator.once_in(10) {
            let channels = generator.one_of(&[channels - 1, channels + 1, 1]);
            input.frame.resize(channels * code.frame_length(), 0);
        }
        for (length, one) in input.lengths.iter_mut().zip(code.lengths()) {
            match generator.below(12) {
                0 | 1 => *length = length_around(generator, channels * one),
                2 => {
                    let fewer = generator.below(channels);
                    *length = length_enough(generator, fewer * one);
                }
                _ => (),
            }
        }
        if generator.once_in(10) {
            self.count = generator.one_of(&[0, 1, 8, 9, 10, 16, 128, 255]);
        }
        if generator.once_in(10) {
            self.allowance = 0;
        }
    }

    /// All that the call is given, so that it can be made again.
    pub fn inputs(&self) -> Inputs {
        let inputs = self.input.inputs();
        inputs
            .number("count", usize::from(self.count))
            .number("allowance", self.allowance as usize)
    }
}

/// The frame of one channel: near the word, arbitrary, or one in which a column has no 0.
fn channel_frame(generator: &mut Generator, sample: &CodeSample, code: &Code) -> Vec<u8> {
    let mut frame = inputs::frame(generator, sample, code);
    if generator.once_in(8) {
        let q = code.field().size();
        let column = generator.below(code.n);
        let column = &mut frame[column * q..][..q];
        column.iter_mut().for_each(|cost| *cost = (*cost).max(1));
    }
    frame
}

/// An allowance: the least, the greatest, what is just enough for every run, one iteration for each channel, or
/// anything between.
fn any_allowance(generator: &mut Generator, count: u8, limit: u8) -> u32 {
    let enough = u32::from(count) * u32::from(limit);
    match generator.below(10) {
        0 => 1,
        1 => u32::MAX,
        2 => enough,
        // Enough, though the number would be small if its high bits were lost.
        3 => (1 << generator.one_of(&[16, 24, 31])) + u32::from(generator.byte(0..=3)),
        4 => u32::from(count),
        _ => 1 + generator.below(enough as usize) as u32,
    }
}
