//! The code of the simulation: over GF(32) the array of 31 by 31 blocks dispersed from
//! w_ij = alpha^(j-i) + 1, rows i = 0 to 3 and columns j = 4 to 11. It has 248 columns, 124 checks of
//! degree 8 and 992 edges; every column is in 4 checks, and 137 of the 248 symbols are free.

use std::ops::Range;

use crate::code::{Code, Edge};
use crate::field::Field;

/// The rows i of the array.
const ROWS: Range<usize> = 0..4;
/// The columns j of the array.
const COLUMNS: Range<usize> = 4..12;

/// The (248,137) code over GF(32).
pub fn code() -> Code {
    let field = Field::new(5);
    let order = field.order();
    let block_row = |i| (0..order).map(move |r| (i, r));
    let checks = ROWS
        .flat_map(block_row)
        .map(|(i, r)| check(&field, i, r))
        .collect();
    Code {
        columns: COLUMNS.len() * order,
        checks,
        field,
    }
}

/// Row r of the blocks in row i of the array. "block of alpha^k: alpha^k at position k of its first
/// row, each next row shifted by one and multiplied by alpha": row r has alpha^(k+r) at position
/// k + r, both counted in a circle of 31.
fn check(field: &Field, i: usize, r: usize) -> Vec<Edge> {
    let edge = |(block, j): (usize, usize)| {
        let k = field.exponent(field.power(j - i) ^ 1);
        Edge {
            column: block * field.order() + (k + r) % field.order(),
            weight: field.power(k + r),
        }
    };
    COLUMNS.enumerate().map(edge).collect()
}
