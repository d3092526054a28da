//! What a call with many slices is lent.

/// The slices of a decoding, as [`decode`](crate::decode) has them. For [`channels`](crate::channels()) "the frames,
/// and each kind of output, stand end to end by channel in one lent buffer per kind" (document 02, §9).
#[derive(Debug, Default)]
pub struct Lent<'a> {
    /// The code line.
    pub code: &'a [u8],
    /// The frame, or the frames.
    pub frame: &'a [u8],
    /// Gets the decisions.
    pub symbols: &'a mut [u8],
    /// Gets the costs, from which a window's next iteration goes on.
    pub costs: &'a mut [u16],
    /// Gets the records, from which a window's next iteration goes on.
    pub store: &'a mut [u8],
    /// Gets the margins.
    pub margins: &'a mut [u16],
}

impl Lent<'_> {
    /// The same for one call, after which they can be lent again.
    pub fn reborrow(&mut self) -> Lent<'_> {
        Lent {
            code: self.code,
            frame: self.frame,
            symbols: self.symbols,
            costs: self.costs,
            store: self.store,
            margins: self.margins,
        }
    }
}
