//! What is counted over many frames.

use crate::decoder::Outcome;
use crate::share::wilson;

/// The counts of one decoder at one noise.
#[derive(Clone, Copy, Debug, Default, PartialEq, Eq)]
pub struct Tally {
    /// Frames decoded.
    pub frames: usize,
    /// Symbols decided, N a frame.
    pub symbols: usize,
    /// Frames whose decisions do not satisfy every check after the last iteration.
    pub not_found: usize,
    /// Frames whose decisions satisfy every check but are not the word sent.
    pub wrong: usize,
    /// Decisions that are not the symbol sent.
    pub symbol_errors: usize,
    /// The iterations of all frames together.
    pub iterations: usize,
}

impl Tally {
    /// Counts one frame.
    pub fn count(&mut self, outcome: Outcome, sent: &[u8], decided: &[u8]) {
        let pairs = sent.iter().zip(decided);
        let errors = pairs.filter(|(sent, decided)| sent != decided).count();
        self.frames += 1;
        self.symbols += sent.len();
        self.symbol_errors += errors;
        self.iterations += usize::from(outcome.iterations);
        if !outcome.found {
            self.not_found += 1;
        } else if errors > 0 {
            self.wrong += 1;
        }
    }

    /// Frames that are not found, or found wrong. A word sent satisfies every check, so a frame that
    /// is not found has a wrong decision.
    pub fn frame_errors(&self) -> usize {
        self.not_found + self.wrong
    }

    /// The frame error rate.
    pub fn frame_error_rate(&self) -> f64 {
        self.frame_errors() as f64 / self.frames as f64
    }

    /// The symbol error rate.
    pub fn symbol_error_rate(&self) -> f64 {
        self.symbol_errors as f64 / self.symbols as f64
    }

    /// The iterations of a frame on average.
    pub fn mean_iterations(&self) -> f64 {
        self.iterations as f64 / self.frames as f64
    }

    /// The interval in which the frame error rate lies with a confidence of 95 percent, by Wilson's
    /// formula.
    pub fn interval(&self) -> (f64, f64) {
        wilson(self.frame_error_rate(), self.frames as f64)
    }
}
