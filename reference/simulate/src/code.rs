//! A code as a list of checks, and its code line. Document 01, "Code line as bytes": "p; N as two
//! bytes, high first (1 to 256); M (1 to 128); scale g (1 to 16); iteration limit I (1 to 255). Then
//! M checks: degree byte, then for each edge the column (two bytes, high first, below N, rising
//! within the check) and weight." The first byte is that of document 02, §3 and §5.

use petsivola::{Edition, Rule};

use crate::field::Field;

/// One edge of a check.
#[derive(Clone, Copy, Debug, PartialEq, Eq, PartialOrd, Ord)]
pub struct Edge {
    /// The column of the code.
    pub column: usize,
    /// The nonzero weight.
    pub weight: u8,
}

/// A code: its field, its length and its checks, each with rising columns.
#[derive(Clone, Debug, PartialEq, Eq)]
pub struct Code {
    /// The field of the symbols.
    pub field: Field,
    /// N.
    pub columns: usize,
    /// The M checks in code order.
    pub checks: Vec<Vec<Edge>>,
}

impl Code {
    /// p.
    pub fn p(&self) -> u8 {
        self.field.p()
    }

    /// The number of edges of all checks together.
    pub fn edges(&self) -> usize {
        self.checks.iter().map(Vec::len).sum()
    }

    /// "A frame is N times q costs": their number.
    pub fn frame_length(&self) -> usize {
        self.columns * self.field.size()
    }

    /// "as many bytes as the M record lengths add up to", each with "1 + 2k bytes a symbol" behind its
    /// shifts.
    pub fn store_length(&self, deviations: usize) -> usize {
        self.edges() + (1 + 2 * deviations) * (self.field.size() - 1) * self.checks.len()
    }

    /// N times p: the bits that one frame carries over the channel.
    pub fn coded_bits(&self) -> usize {
        self.columns * usize::from(self.p())
    }

    /// "It is satisfied when the sum of h_n times x_n is 0": whether every check is.
    pub fn is_word(&self, symbols: &[u8]) -> bool {
        self.checks.iter().all(|check| {
            let terms = check
                .iter()
                .map(|edge| self.field.product(edge.weight, symbols[edge.column]));
            terms.fold(0, |sum, term| sum ^ term) == 0
        })
    }

    /// The code line with k, 2 or 3, an edition, scale g and iteration limit I.
    pub fn line(&self, deviations: usize, edition: Edition, g: u8, limit: u8) -> Vec<u8> {
        let rule = Rule::new(self.p(), byte(deviations), edition);
        let mut line = vec![rule.expect("p is 2 to 6, and k 2 or 3").first()];
        line.extend(two_bytes(self.columns));
        line.extend([byte(self.checks.len()), g, limit]);
        for check in &self.checks {
            line.push(byte(check.len()));
            for edge in check {
                line.extend(two_bytes(edge.column));
                line.push(edge.weight);
            }
        }
        line
    }
}

/// A number of a code line that takes one byte.
fn byte(number: usize) -> u8 {
    u8::try_from(number).expect("M is at most 128, and a degree and k less")
}

/// "two bytes, high first".
fn two_bytes(number: usize) -> [u8; 2] {
    let number = u16::try_from(number).expect("N is at most 256");
    number.to_be_bytes()
}
