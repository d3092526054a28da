//! A check by a search over kept entries, as a baseline: each row keeps its three cheapest entries, and the
//! cheapest choices of one or two columns are looked for among them. Its time hardly grows with the
//! degree.

mod field;
mod minima;
mod rows;
mod search;

use std::ops::RangeInclusive;

use crate::accepted::{self, Refusal, MOST_COLUMNS};
use field::MOST;
use rows::Rows;
use search::{put_groups, GROUP};

/// The degrees of this engine: for E it takes the cheapest choice of all columns, which of two columns
/// may be sent to neither, and it keeps three entries of a row, which two columns do not have.
const DEGREES: RangeInclusive<usize> = 3..=MOST_COLUMNS;

/// "Check: 6, 9, 11, 12, 13, 4."
#[inline(never)]
pub fn check(p: u8, weights: &[u8], costs: &[u8], out: &mut [u8]) -> Result<usize, Refusal> {
    accepted::weights(p, DEGREES, weights)?;
    let (d, q) = (weights.len(), 1 << p);
    accepted::costs(d, q, costs)?;
    let length = d + GROUP * (q - 1);
    if out.len() < length {
        return Err(4);
    }
    put_record(p, q, weights, costs, &mut out[..length]);
    Ok(length)
}

/// The record of an accepted check.
fn put_record(p: u8, q: usize, weights: &[u8], costs: &[u8], out: &mut [u8]) {
    let mut row = [0; MOST];
    let mut line = [0; MOST];
    let (mut first, mut second, mut third) = ([0; MOST], [0; MOST], [0; MOST]);
    let mut rows = Rows {
        first: &mut first[..q],
        second: &mut second[..q],
        third: &mut third[..q],
    };
    let (shifts, groups) = out.split_at_mut(weights.len());
    rows.clear();
    rows.fill(p, weights, costs, &mut row[..q], &mut line[..q], shifts);
    put_groups(&rows.minima(weights.len()), groups);
}
