//! From rows to symbols.

/// The byte of symbol x is made from row h x + s.
pub fn put(rows: &[u8], terms: &[u8], shift: u8, byte: impl Fn(u8) -> u8, out: &mut [u8]) {
    for (out, &term) in out.iter_mut().zip(terms) {
        *out = byte(rows[usize::from(term ^ shift)]);
    }
}
