//! What the calls with more than one decoding step or channel are lent.

/// The code line, the frame and the buffers of a decoding. Where several channels are decoded, "the frames, and
/// each kind of output, stand end to end by channel in one lent buffer per kind" (document 02, §9).
#[derive(Debug)]
pub struct Lent<'a> {
    /// The code line.
    pub code: &'a [u8],
    /// The frame, or the frames.
    pub frame: &'a [u8],
    /// The symbol buffer.
    pub symbols: &'a mut [u8],
    /// The cost buffer.
    pub costs: &'a mut [u16],
    /// The record store.
    pub store: &'a mut [u8],
    /// The margin buffer.
    pub margins: &'a mut [u16],
}

impl Lent<'_> {
    /// The lengths of the buffers that are filled, in the order of the parameters.
    pub fn lengths(&self) -> [usize; 4] {
        [
            self.symbols.len(),
            self.costs.len(),
            self.store.len(),
            self.margins.len(),
        ]
    }
}
