//! The lines of a check: a column's rests by rows. Row h x + h z has the rest of symbol x, where z is the
//! column's hard decision.

use super::lanes::Block;
use super::products::Products;
use super::rule::Rule;
use crate::decision::Decision;

/// The columns' products, kept for the sent costs, their lines, and their shifts.
pub fn fill(
    rule: Rule,
    weights: &[u8],
    costs: &[u8],
    products: &mut [Block],
    lines: &mut [Block],
    shifts: &mut [u8],
) {
    let field = Products::new(rule);
    let mut sum = 0;
    let inputs = weights.iter().zip(costs.chunks_exact(rule.q));
    let rows = products.chunks_exact_mut(rule.blocks());
    let rows = rows.zip(lines.chunks_exact_mut(rule.blocks()));
    for ((shift, (&weight, costs)), (row, line)) in shifts.iter_mut().zip(inputs).zip(rows) {
        field.fill(weight, row);
        let row = row.as_flattened();
        *shift = row[usize::from(Decision::of(costs).symbol)];
        sum ^= *shift;
        scatter(costs, row, *shift, line.as_flattened_mut());
    }
    for shift in shifts {
        *shift ^= sum;
    }
}

/// Each symbol's rest into its row.
fn scatter(costs: &[u8], terms: &[u8], hard_term: u8, line: &mut [u8]) {
    for (&cost, &term) in costs.iter().zip(terms) {
        line[usize::from(term ^ hard_term)] = 255 - cost;
    }
}
