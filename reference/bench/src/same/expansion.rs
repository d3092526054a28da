//! The expansion of a record.

use super::lanes::LANES;
use super::lists::Lists;
use super::products::Products;
use super::rule::{Rule, MOST_BLOCKS};
use super::symbols;
use crate::accepted::{self, Refusal, DEGREES};

/// "Expand: 6, 9, 11, 16, 2."
pub fn expand(first: u8, weights: &[u8], record: &[u8], out: &mut [u8]) -> Result<usize, Refusal> {
    expand_by(Rule::of(first)?, weights, record, out)
}

/// The expansion under any rule.
#[inline(never)]
pub fn expand_by(
    rule: Rule,
    weights: &[u8],
    record: &[u8],
    out: &mut [u8],
) -> Result<usize, Refusal> {
    accepted::weights(rule.p, DEGREES, weights)?;
    let d = weights.len();
    if record.len() != rule.record_length(d) {
        return Err(16);
    }
    let (shifts, groups) = record.split_at(d);
    let lists = Lists::read(rule, groups);
    let all = shifts.iter().fold(0, |all, shift| all | shift);
    if usize::from(all) >= rule.q || !lists.in_order(d as u8) {
        return Err(16);
    }
    let out = out.get_mut(..d * rule.q).ok_or(2)?;
    put(rule, weights, shifts, &lists, out);
    Ok(out.len())
}

/// "Expansion writes d times q unscaled bytes, column by column, each column by x."
fn put(rule: Rule, weights: &[u8], shifts: &[u8], lists: &Lists, out: &mut [u8]) {
    let field = Products::new(rule);
    let mut terms = [[0; LANES]; MOST_BLOCKS];
    let terms = &mut terms[..rule.blocks()];
    let mut rows = [[0; LANES]; MOST_BLOCKS];
    let rows = &mut rows[..rule.blocks()];
    let columns = weights.iter().zip(shifts).zip(out.chunks_exact_mut(rule.q));
    for (n, ((&weight, &shift), out)) in (0..).zip(columns) {
        field.fill(weight, terms);
        lists.column(n, rows);
        symbols::put(
            rows.as_flattened(),
            terms.as_flattened(),
            shift,
            |cost| cost,
            out,
        );
    }
}
