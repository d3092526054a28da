//! The rule of a check, with the sizes that follow from it.

use super::lanes::LANES;
use crate::accepted::Refusal;

/// The largest q, and so the most rows of a table.
pub const MOST_ROWS: usize = 64;
/// The most blocks of a table.
pub const MOST_BLOCKS: usize = MOST_ROWS / LANES;
/// The largest k.
pub const MOST_DEVIATIONS: usize = 3;

/// Field, deviations and join.
#[derive(Clone, Copy, Debug)]
pub struct Rule {
    /// p.
    pub p: u8,
    /// The symbols of the field, 2 to the p.
    pub q: usize,
    /// The rows of a table: q, and at least a block.
    pub l: usize,
    /// The most deviations of a choice, 2 or 3.
    pub k: usize,
    /// Whether a choice costs the greatest of its columns' costs, and not their sum.
    pub greatest: bool,
}

impl Rule {
    /// The rule of a first byte, or refusal 6. Document 02, §5: "high digit above 3, or low digit outside 2
    /// to 6".
    pub fn of(first: u8) -> Result<Rule, Refusal> {
        let (k, greatest) = match first >> 4 {
            0 => (2, false),
            1 => (2, true),
            2 => (3, false),
            3 => (3, true),
            _ => return Err(6),
        };
        Rule::new(first & 0x0F, k, greatest)
    }

    /// A rule, or refusal 6.
    pub fn new(p: u8, k: usize, greatest: bool) -> Result<Rule, Refusal> {
        if !(2..=6).contains(&p) {
            return Err(6);
        }
        let q = 1 << p;
        Ok(Rule {
            p,
            q,
            l: q.max(LANES),
            k,
            greatest,
        })
    }

    /// The blocks of a table.
    pub fn blocks(self) -> usize {
        self.l / LANES
    }

    /// The bytes of each a in a record: E, and column and S of k pairs.
    pub fn group(self) -> usize {
        1 + 2 * self.k
    }

    /// "Length: d + 5(q - 1)", for any k.
    pub fn record_length(self, d: usize) -> usize {
        d + self.group() * (self.q - 1)
    }
}
