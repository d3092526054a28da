//! The code line, read once into tables.

use super::rule::Rule;
use crate::accepted::{Refusal, DEGREES};

/// "M (1 to 128)"
const MOST_CHECKS: usize = 128;
/// "All checks together have at most 1,024 edges."
const MOST_EDGES: usize = 1_024;
/// Column, two bytes, and weight.
const EDGE: usize = 3;

/// A check: its columns and their weights.
pub type Check<'a> = (&'a [u16], &'a [u8]);

/// A check by its number, with its first edge in the tables.
#[derive(Clone, Copy)]
pub struct Place {
    pub check: usize,
    pub edge: usize,
}

impl Place {
    /// The first check.
    pub const FIRST: Place = Place { check: 0, edge: 0 };
}

/// The numbers of an accepted code line, and its checks end to end.
pub struct Code {
    pub rule: Rule,
    pub n: usize,
    pub m: usize,
    pub g: u16,
    pub limit: u8,
    degrees: [u8; MOST_CHECKS],
    columns: [u16; MOST_EDGES],
    weights: [u8; MOST_EDGES],
}

impl Code {
    /// "Code: 5 if under six bytes, 6, 7, 8; in each check 5 for the degree byte, 9, 5 for its edges,
    /// then 10 and 11 edge by edge; last 5 for bytes left over."
    pub fn read(bytes: &[u8]) -> Result<Code, Refusal> {
        let (&[first, n_high, n_low, m, g, limit], left) = bytes.split_first_chunk().ok_or(5)?;
        let rule = Rule::of(first)?;
        let n = usize::from(u16::from_be_bytes([n_high, n_low]));
        let m = usize::from(m);
        if !(1..=256).contains(&n) || !(1..=MOST_CHECKS).contains(&m) {
            return Err(7);
        }
        if !(1..=16).contains(&g) || limit == 0 {
            return Err(8);
        }
        let mut code = Code {
            rule,
            n,
            m,
            g: u16::from(g),
            limit,
            degrees: [0; MOST_CHECKS],
            columns: [0; MOST_EDGES],
            weights: [0; MOST_EDGES],
        };
        code.read_checks(left)?;
        Ok(code)
    }

    /// All checks, of which nothing is left over.
    fn read_checks(&mut self, mut left: &[u8]) -> Result<(), Refusal> {
        let mut edges = 0;
        for check in 0..self.m {
            let (&degree, after) = left.split_first().ok_or(5)?;
            let d = usize::from(degree);
            if !DEGREES.contains(&d) || edges + d > MOST_EDGES {
                return Err(9);
            }
            let (line, after) = after.split_at_checked(EDGE * d).ok_or(5)?;
            self.degrees[check] = degree;
            self.read_edges(line, edges)?;
            edges += d;
            left = after;
        }
        if left.is_empty() {
            Ok(())
        } else {
            Err(5)
        }
    }

    /// The edges of one check, into the tables from a place on.
    fn read_edges(&mut self, line: &[u8], from: usize) -> Result<(), Refusal> {
        let mut low = 0;
        for (place, edge) in (from..).zip(line.chunks_exact(EDGE)) {
            let column = u16::from_be_bytes([edge[0], edge[1]]);
            if usize::from(column) >= self.n || column < low {
                return Err(10);
            }
            if edge[2] == 0 || edge[2] >> self.rule.p != 0 {
                return Err(11);
            }
            self.columns[place] = column;
            self.weights[place] = edge[2];
            low = column + 1;
        }
        Ok(())
    }

    /// The checks in code order.
    pub fn checks(&self) -> impl Iterator<Item = Check<'_>> {
        let checks = self.checks_between(Place::FIRST, self.m);
        checks.map(|(_, check)| check)
    }

    /// The checks from a place on and before check `to`, each with its place.
    pub fn checks_between(
        &self,
        from: Place,
        to: usize,
    ) -> impl Iterator<Item = (Place, Check<'_>)> {
        let mut edge = from.edge;
        let degrees = (from.check..).zip(&self.degrees[from.check..to]);
        degrees.map(move |(check, &degree)| {
            let place = Place { check, edge };
            let part = edge..edge + usize::from(degree);
            edge = part.end;
            (place, (&self.columns[part.clone()], &self.weights[part]))
        })
    }

    /// "as many bytes as the M record lengths add up to"
    pub fn store_length(&self) -> usize {
        let degrees = self.degrees[..self.m].iter();
        degrees
            .map(|&degree| self.rule.record_length(usize::from(degree)))
            .sum()
    }
}
