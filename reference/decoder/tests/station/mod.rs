//! A base station: a code line, frames, an allowance and the buffers for all channels.

// Each test file uses a part of it.
#![allow(dead_code)]

use reference_decoder::sample::{self, bytes, Buffers, Generator, Size, Style};
use reference_decoder::{channels, code_line, Code, Outcome, Refusal, Served};

/// Document 01's code, with an iteration limit of 3: a check on three columns, weights 1.
pub const CODE: &str = "020003011003 03 000001 000101 000201";
/// A frame that is found after one iteration.
pub const FOUND_LATER: &str = "05000907 00040803 0006020A";
/// A frame whose first decisions, all 0, satisfy the check.
pub const FOUND_AT_ONCE: &str = "00050907 00040803 0006020A";
/// A frame whose first column has no 0.
pub const REFUSED: &str = "05010907 00040803 0006020A";

/// The station and what it lends.
#[derive(Clone, Debug, PartialEq)]
pub struct Station {
    pub count: u8,
    pub allowance: u32,
    pub code: Vec<u8>,
    pub frames: Vec<u8>,
    pub buffers: Buffers,
}

impl Station {
    /// Buffers a little longer than the channels need, of arbitrary content.
    pub fn new(generator: &mut Generator, code: &[u8], frames: &[Vec<u8>]) -> Station {
        let one = code_line(code).expect("an accepted code line").lengths();
        let lengths = one.map(|length| frames.len() * length + generator.below(3));
        Station {
            count: u8::try_from(frames.len()).expect("a few frames"),
            allowance: u32::MAX,
            code: code.to_vec(),
            frames: frames.concat(),
            buffers: Buffers::arbitrary(generator, lengths),
        }
    }

    /// The same from hexadecimal digits, under document 01's code.
    pub fn of(frames: &[&str], allowance: u32) -> Station {
        let frames: Vec<Vec<u8>> = frames.iter().map(|digits| bytes(digits)).collect();
        Station {
            allowance,
            ..Station::new(&mut Generator::new(90), &bytes(CODE), &frames)
        }
    }

    /// A random code with up to eight frames near a word of it, now and then one without a 0, and any allowance.
    pub fn random(generator: &mut Generator, size: &Size) -> Station {
        let sample = sample::code(generator, size);
        let code = code_line(&sample.line).expect("an accepted code line");
        let frame = |generator: &mut Generator| {
            let style = generator.one_of(&Style::ALL);
            let wrong = generator.between(0..=code.n);
            let mut frame = sample::noisy_frame(generator, &code, &sample.word, wrong, style);
            if generator.once_in(6) {
                let column = frame.chunks_mut(code.field().size()).last().unwrap();
                column.iter_mut().for_each(|cost| *cost = (*cost).max(1));
            }
            frame
        };
        let count = generator.between(1..=8);
        let frames: Vec<Vec<u8>> = (0..count).map(|_| frame(generator)).collect();
        let most = count * usize::from(code.limit);
        let allowance = match generator.below(4) {
            0 => generator.between(1..=count),
            1 => most,
            _ => generator.between(1..=most),
        };
        Station {
            allowance: u32::try_from(allowance).expect("at most 2,040"),
            ..Station::new(generator, &sample.line, &frames)
        }
    }

    /// Decodes all channels.
    pub fn serve(&mut self) -> Result<Served, Refusal> {
        let lent = self.buffers.lend(&self.code, &self.frames);
        channels(self.count, self.allowance, lent)
    }

    /// The accepted code.
    pub fn read_code(&self) -> Code {
        code_line(&self.code).expect("an accepted code line")
    }

    /// The frame of a channel.
    pub fn frame(&self, channel: usize) -> &[u8] {
        let length = self.read_code().frame_length();
        &self.frames[channel * length..][..length]
    }

    /// A channel's parts of the buffers.
    pub fn part(&self, channel: usize) -> Buffers {
        let one = self.read_code().lengths();
        let [_, rest] = self.buffers.split(one.map(|length| channel * length));
        let [part, _] = rest.split(one);
        part
    }

    /// What follows the last channel's part in the buffers.
    pub fn rest(&self) -> Buffers {
        let lengths = self.read_code().lengths();
        let [_, rest] = self
            .buffers
            .split(lengths.map(|length| usize::from(self.count) * length));
        rest
    }

    /// Decodes a channel alone, in its parts of the buffers as they are, with this iteration limit.
    pub fn alone(&self, channel: usize, limit: u8) -> (Result<Outcome, Refusal>, Buffers) {
        let mut code = self.code.clone();
        code[5] = limit;
        let mut part = self.part(channel);
        (part.decode(&code, self.frame(channel)), part)
    }
}
