//! One call, on the proved library and on the reference decoder.

use std::error::Error;
use std::fmt::{self, Debug, Write};

use reference_decoder::line::hexadecimal;

use crate::lent::{Element, Lent};

/// What differed in one call, with its inputs.
#[derive(Clone, Debug, PartialEq, Eq)]
pub struct Difference(String);

impl Difference {
    /// A difference in these words.
    pub fn new(words: String) -> Difference {
        Difference(words)
    }
}

impl fmt::Display for Difference {
    fn fmt(&self, formatter: &mut fmt::Formatter<'_>) -> fmt::Result {
        formatter.write_str(&self.0)
    }
}

impl Error for Difference {}

/// Collects what differs in one call, or in several on the same inputs.
#[derive(Default)]
pub struct Comparison {
    findings: String,
}

impl Comparison {
    /// Compares the two answers.
    pub fn answers<T: PartialEq + Debug>(&mut self, library: &T, reference: &T) {
        if library != reference {
            self.find(&format!(
                "the library answers {library:?}, the reference decoder {reference:?}"
            ));
        }
    }

    /// Compares a lent slice after the library's call with what it must hold.
    pub fn lent<T: Element>(&mut self, name: &str, after: &Lent<T>, expected: &Lent<T>) {
        if let Some(difference) = after.first_difference(expected) {
            self.find(&format!("{name}: {difference}"));
        }
    }

    /// Whether nothing has differed so far.
    pub fn agrees(&self) -> bool {
        self.findings.is_empty()
    }

    /// Says where findings were made, if there are any.
    pub fn explain(&mut self, place: &str) {
        if !self.agrees() {
            self.find(place);
        }
    }

    /// Adds a finding in words of its own.
    fn find(&mut self, finding: &str) {
        self.findings.push_str("\n  ");
        self.findings.push_str(finding);
    }

    /// Ends the comparison; `inputs` says on which inputs a difference was found.
    pub fn end(self, call: &str, inputs: impl FnOnce() -> Inputs) -> Result<(), Difference> {
        if self.agrees() {
            return Ok(());
        }
        Err(Difference::new(format!(
            "{call} differs:{}\n  on{}",
            self.findings,
            inputs()
        )))
    }
}

/// The inputs of a call, written so that the call can be made again.
#[derive(Default)]
pub struct Inputs(String);

/// The bytes of an input that are written at most; the inputs of every entry point are shorter.
const MOST_WRITTEN: usize = 70_000;

impl Inputs {
    /// Adds a number.
    pub fn number(mut self, name: &str, number: usize) -> Inputs {
        write!(self.0, " {name} {number}").expect("a string takes all text");
        self
    }

    /// Adds bytes, in hexadecimal.
    pub fn bytes(mut self, name: &str, bytes: &[u8]) -> Inputs {
        let written = &bytes[..bytes.len().min(MOST_WRITTEN)];
        let text = hexadecimal(written);
        let text = String::from_utf8_lossy(&text);
        write!(self.0, " {name} '{text}'").expect("a string takes all text");
        if written.len() < bytes.len() {
            write!(self.0, " and more, {} bytes", bytes.len()).expect("a string takes all text");
        }
        self
    }
}

impl fmt::Display for Inputs {
    fn fmt(&self, formatter: &mut fmt::Formatter<'_>) -> fmt::Result {
        formatter.write_str(&self.0)
    }
}
