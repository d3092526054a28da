//! What the simulation asks of a decoder.

/// "The result is found (0) or not found (1), with t."
#[derive(Clone, Copy, Debug, PartialEq, Eq)]
pub struct Outcome {
    /// Whether the decisions satisfy every check.
    pub found: bool,
    /// t, the iterations made.
    pub iterations: u8,
}

/// A decoder of one code with one scale and one iteration limit.
pub trait Decoder {
    /// Decodes a frame of N times q costs, at least one of each column 0.
    fn decode(&mut self, frame: &[u8]) -> Outcome;

    /// The N decisions of the last decoding.
    fn symbols(&self) -> &[u8];
}
