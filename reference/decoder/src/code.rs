//! The code line. Document 01, "Code line as bytes": "p; N as two bytes, high first (1 to 256);
//! M (1 to 128); scale g (1 to 16); iteration limit I (1 to 255). Then M checks: degree byte, then
//! for each edge the column (two bytes, high first, below N, rising within the check) and weight."
//! The first byte is that of document 02, §3 and §5: p in its low digit, k and the edition in the high one.

use std::ops::Range;

use crate::check::DEGREES;
use crate::field::Field;
use crate::record;
use crate::refusal::Refusal;
use crate::rule::Rule;

/// "N as two bytes, high first (1 to 256)"
pub const MOST_COLUMNS: usize = 256;
/// "M (1 to 128)"
pub const MOST_CHECKS: usize = 128;
/// "scale g (1 to 16)"
pub const MOST_SCALE: u8 = 16;
/// "All checks together have at most 1,024 edges."
pub const MOST_EDGES: usize = 1_024;

/// The bytes before the checks: the first byte, N high, N low, M, g, I.
pub const HEADER_LENGTH: usize = 6;
/// The bytes of an edge: column high, column low, weight.
pub const EDGE_LENGTH: usize = 3;

/// An accepted code line.
#[derive(Clone, Debug, PartialEq, Eq)]
pub struct Code {
    /// The first byte; it gives the rule.
    pub first: u8,
    /// N, the number of columns.
    pub n: usize,
    /// M, the number of checks.
    pub m: usize,
    /// g, the scale.
    pub g: u8,
    /// I, the iteration limit.
    pub limit: u8,
    /// The M checks in code order.
    pub checks: Vec<CheckNode>,
}

/// One check of a code: edge k leads to column `columns[k]` of the code with weight `weights[k]`.
#[derive(Clone, Debug, PartialEq, Eq)]
pub struct CheckNode {
    /// The columns of the code, rising.
    pub columns: Vec<usize>,
    /// The nonzero weight of each edge.
    pub weights: Vec<u8>,
}

impl Code {
    /// The rule of the code's checks.
    pub fn rule(&self) -> Rule {
        Rule::new(self.first).expect("an accepted first byte")
    }

    /// The field of the code's symbols.
    pub fn field(&self) -> Field {
        self.rule().field()
    }

    /// The bytes of the code line that [`code_line`] reads as this code.
    pub fn line(&self) -> Vec<u8> {
        let high_first = |number: usize| {
            let number = u16::try_from(number).expect("N is at most 256");
            number.to_be_bytes()
        };
        let mut line = vec![self.first];
        line.extend(high_first(self.n));
        line.push(u8::try_from(self.m).expect("M is at most 128"));
        line.extend([self.g, self.limit]);
        for check in &self.checks {
            line.push(u8::try_from(check.columns.len()).expect("a degree is at most 32"));
            for (&column, &weight) in check.columns.iter().zip(&check.weights) {
                line.extend(high_first(column));
                line.push(weight);
            }
        }
        line
    }

    /// The edges of all checks together.
    pub fn edges(&self) -> usize {
        let degrees = self.checks.iter().map(|check| check.weights.len());
        degrees.sum()
    }

    /// "A frame is N times q costs, column by column."
    pub fn frame_length(&self) -> usize {
        self.n * self.field().size()
    }

    /// The used part of the store: "as many bytes as the M record lengths add up to".
    pub fn store_length(&self) -> usize {
        self.checks
            .iter()
            .map(|check| record::length(self.rule(), check.weights.len()))
            .sum()
    }

    /// The place of each check's record in a store: "the records end to end in code order".
    pub fn places(&self) -> Vec<Range<usize>> {
        let mut end = 0;
        let place = |check: &CheckNode| {
            let start = end;
            end += record::length(self.rule(), check.weights.len());
            start..end
        };
        self.checks.iter().map(place).collect()
    }

    /// The records of a store in code order, whether or not they have accepted form; it is long enough.
    pub fn records<'s>(&self, store: &'s [u8]) -> Vec<&'s [u8]> {
        let places = self.places().into_iter();
        places.map(|place| &store[place]).collect()
    }

    /// The used parts of a decoding's buffers, in the order of the parameters: symbols, costs, store and
    /// margins.
    pub fn lengths(&self) -> [usize; 4] {
        [self.n, self.frame_length(), self.store_length(), self.n]
    }
}

/// Reads a code line. "Code: 5 if under six bytes, 6, 7, 8; in each check 5 for the degree byte, 9,
/// 5 for its edges, then 10 and 11 edge by edge; last 5 for bytes left over."
///
/// The edge total is tested with the degree, so before 5 for the check's edges.
pub fn code_line(bytes: &[u8]) -> Result<Code, Refusal> {
    let (header, mut rest) = bytes
        .split_first_chunk::<HEADER_LENGTH>()
        .ok_or(Refusal::CodeBytes)?;
    let [first, n_high, n_low, m, g, limit] = *header;
    let field = Rule::new(first)?.field();
    let n = two_bytes(n_high, n_low);
    let m = usize::from(m);
    if !(1..=MOST_COLUMNS).contains(&n) || !(1..=MOST_CHECKS).contains(&m) {
        return Err(Refusal::ColumnsOrChecks);
    }
    if !(1..=MOST_SCALE).contains(&g) || limit == 0 {
        return Err(Refusal::ScaleOrLimit);
    }
    let mut checks = Vec::new();
    let mut edge_total = 0;
    for _ in 0..m {
        let (&degree, after_degree) = rest.split_first().ok_or(Refusal::CodeBytes)?;
        let degree = usize::from(degree);
        edge_total += degree;
        if !DEGREES.contains(&degree) || edge_total > MOST_EDGES {
            return Err(Refusal::Degree);
        }
        let (edges, after_edges) = after_degree
            .split_at_checked(EDGE_LENGTH * degree)
            .ok_or(Refusal::CodeBytes)?;
        checks.push(check_node(field, n, edges)?);
        rest = after_edges;
    }
    if !rest.is_empty() {
        return Err(Refusal::CodeBytes);
    }
    Ok(Code {
        first,
        n,
        m,
        g,
        limit,
        checks,
    })
}

/// The check with these edges, or the first refusal "10 and 11 edge by edge".
fn check_node(field: Field, n: usize, edges: &[u8]) -> Result<CheckNode, Refusal> {
    let mut columns: Vec<usize> = Vec::new();
    let mut weights = Vec::new();
    for edge in edges.chunks_exact(EDGE_LENGTH) {
        let column = two_bytes(edge[0], edge[1]);
        let weight = edge[2];
        // "Rising, here and below, means each greater than the one before."
        if column >= n || columns.last().is_some_and(|&before| column <= before) {
            return Err(Refusal::Column);
        }
        if weight == 0 || !field.contains(weight) {
            return Err(Refusal::Weight);
        }
        columns.push(column);
        weights.push(weight);
    }
    Ok(CheckNode { columns, weights })
}

/// A number of two bytes, high first.
fn two_bytes(high: u8, low: u8) -> usize {
    usize::from(u16::from_be_bytes([high, low]))
}
