//! The display view of a record. Document 02, §11: "The truck's display may only show which symbol each column was urged
//! towards. Give it a reader returning the shifts alone, divided by the weights." The bench view is
//! [`expand`](crate::expand).

use crate::record;
use crate::refusal::Refusal;

/// Writes the symbol that each column was urged towards and answers d. The degree is the number of weights. "Both refuse
/// as expansion does; the display's buffer is d bytes, refusal 2."
pub fn display(first: u8, weights: &[u8], record: &[u8], out: &mut [u8]) -> Result<usize, Refusal> {
    let field = record::accept(first, weights, record)?.field();
    if out.len() < weights.len() {
        return Err(Refusal::ShortBuffer);
    }
    // "A record has d shift bytes, s_0 first".
    let columns = record.iter().zip(weights);
    for (symbol, (&shift, &weight)) in out.iter_mut().zip(columns) {
        *symbol = field.product(shift, field.inverse(weight));
    }
    Ok(weights.len())
}
