//! Which checks are accepted, for the calls of this package.

use std::ops::RangeInclusive;

/// Document 01's number of a refusal.
pub type Refusal = u8;

/// The most columns of a check.
pub const MOST_COLUMNS: usize = 32;

/// Document 02, §1: "Degree becomes 2 to 32."
pub const DEGREES: RangeInclusive<usize> = 2..=MOST_COLUMNS;

/// 6, 9 or 11, in this order, where these degrees are accepted.
pub fn weights(p: u8, degrees: RangeInclusive<usize>, weights: &[u8]) -> Result<(), Refusal> {
    if !(2..=6).contains(&p) {
        return Err(6);
    }
    if !degrees.contains(&weights.len()) {
        return Err(9);
    }
    if weights
        .iter()
        .any(|&weight| weight == 0 || weight >> p != 0)
    {
        return Err(11);
    }
    Ok(())
}

/// 12 or 13, in this order, for d columns of q costs.
pub fn costs(d: usize, q: usize, costs: &[u8]) -> Result<(), Refusal> {
    if costs.len() != d * q {
        return Err(12);
    }
    if !costs.chunks_exact(q).all(has_zero) {
        return Err(13);
    }
    Ok(())
}

/// Whether a column has a cost of 0. All costs are tested: a jump at the first zero could not be foretold.
fn has_zero(column: &[u8]) -> bool {
    let costs = column.iter();
    costs.fold(false, |found, &cost| found | (cost == 0))
}
