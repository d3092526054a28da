//! Two blows, one frame. Document 02, §10: "Crews strike twice and the box sends the same symbols again. Combine two
//! accepted frames under one code line: at each column and symbol add the two costs, subtract the column's least, cap
//! at 255."

use crate::check::accept_costs;
use crate::code::code_line;
use crate::machine::{capped, less_the_least};
use crate::refusal::Refusal;

/// Writes the frame of two blows and answers N times q. Order: "The code's refusals, then 12 and 13 for the first
/// frame. New: 23, second frame's length wrong or a column of it has no 0, after these; then 2 for the output buffer."
pub fn combine(code: &[u8], first: &[u8], second: &[u8], out: &mut [u8]) -> Result<usize, Refusal> {
    let code = code_line(code)?;
    accept_costs(code.field(), code.n, first)?;
    // Both causes have the one number here.
    accept_costs(code.field(), code.n, second).map_err(|_| Refusal::SecondFrame)?;
    // "The output buffer, apart from both, needs N times q bytes."
    let written = code.frame_length();
    if out.len() < written {
        return Err(Refusal::ShortBuffer);
    }
    let q = code.field().size();
    let columns = first.chunks(q).zip(second.chunks(q));
    let combined: Vec<u8> = columns
        .flat_map(|(first, second)| column(first, second))
        .collect();
    out[..written].copy_from_slice(&combined);
    Ok(written)
}

/// One column of both frames. The sums are 0 to 510, and the least is taken off before the cap.
fn column(first: &[u8], second: &[u8]) -> Vec<u8> {
    let costs = first.iter().zip(second);
    let sums = costs.map(|(&first, &second)| i32::from(first) + i32::from(second));
    let differences = less_the_least(sums.collect());
    differences.into_iter().map(capped).collect()
}
