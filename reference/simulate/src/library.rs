//! The proved decoder, called through the static library.

use petsivola::lengths::MOST_CHANNELS;
use petsivola::{Channel, Edition, Lent, Stopped};

use crate::code::Code;
use crate::decoder::{Decoder, Outcome};

/// A decoder of one code line, with the buffers that it lends.
pub struct Library {
    line: Vec<u8>,
    symbols: Vec<u8>,
    costs: Vec<u16>,
    store: Vec<u8>,
    margins: Vec<u16>,
}

impl Library {
    /// A decoder of the code with k, 2 or 3, an edition, scale g and iteration limit I.
    pub fn new(code: &Code, deviations: usize, edition: Edition, g: u8, limit: u8) -> Library {
        Library {
            line: code.line(deviations, edition, g, limit),
            symbols: vec![0; code.columns],
            costs: vec![0; code.frame_length()],
            store: vec![0; code.store_length(deviations)],
            margins: vec![0; code.columns],
        }
    }

    /// The N margins of the last decoding.
    pub fn margins(&self) -> &[u16] {
        &self.margins
    }

    /// Decodes a frame up to the first check update after which the decisions satisfy every check.
    pub fn decode_early(&mut self, frame: &[u8]) -> Stopped {
        petsivola::decode_early(
            &self.line,
            frame,
            &mut self.symbols,
            &mut self.costs,
            &mut self.store,
            &mut self.margins,
        )
        .expect("an accepted code line, an accepted frame and buffers long enough")
    }

    /// The frame of two blows.
    pub fn combine(&self, first: &[u8], second: &[u8]) -> Vec<u8> {
        let mut frame = vec![0; self.costs.len()];
        petsivola::combine(&self.line, first, second, &mut frame)
            .expect("an accepted code line, two accepted frames and a buffer long enough");
        frame
    }
}

impl Decoder for Library {
    fn decode(&mut self, frame: &[u8]) -> Outcome {
        let outcome = petsivola::decode(
            &self.line,
            frame,
            &mut self.symbols,
            &mut self.costs,
            &mut self.store,
            &mut self.margins,
        )
        .expect("an accepted code line, an accepted frame and buffers long enough");
        Outcome {
            found: outcome.status() == 0,
            iterations: outcome.iterations(),
        }
    }

    fn symbols(&self) -> &[u8] {
        &self.symbols
    }
}

/// A decoder of eight channels under one code line, with the buffers that it lends.
pub struct Channels {
    /// N.
    columns: usize,
    line: Vec<u8>,
    symbols: Vec<u8>,
    costs: Vec<u16>,
    store: Vec<u8>,
    margins: Vec<u16>,
}

impl Channels {
    /// A decoder of the code with k, 2 or 3, an edition, scale g and iteration limit I.
    pub fn new(code: &Code, deviations: usize, edition: Edition, g: u8, limit: u8) -> Channels {
        Channels {
            columns: code.columns,
            line: code.line(deviations, edition, g, limit),
            symbols: vec![0; MOST_CHANNELS * code.columns],
            costs: vec![0; MOST_CHANNELS * code.frame_length()],
            store: vec![0; MOST_CHANNELS * code.store_length(deviations)],
            margins: vec![0; MOST_CHANNELS * code.columns],
        }
    }

    /// Decodes eight frames, which stand end to end, with an allowance of iterations for all. A channel that is spent
    /// is not found. Answers the outcome and the N decisions of each.
    pub fn decode(&mut self, frames: &[u8], allowance: u32) -> Vec<(Outcome, Vec<u8>)> {
        let lent = Lent {
            code: &self.line,
            frame: frames,
            symbols: &mut self.symbols,
            costs: &mut self.costs,
            store: &mut self.store,
            margins: &mut self.margins,
        };
        let served = petsivola::channels(MOST_CHANNELS as u8, allowance, lent)
            .expect("an accepted code line, eight frames and buffers long enough");
        let outcome = |channel: Channel| Outcome {
            found: matches!(channel, Channel::Found(_)),
            iterations: channel.iterations(),
        };
        let symbols = self.symbols.chunks_exact(self.columns).map(<[u8]>::to_vec);
        served.channels().map(outcome).zip(symbols).collect()
    }
}
