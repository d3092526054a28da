//! The rule of a check: its field, its number of deviations, and how a choice's cost is made. Document
//! 02, §3: "The number of deviations becomes k, 2 or 3; a first code byte of 22 to 26 hexadecimal means
//! k = 3 with p in its low digit. Check and expansion take this byte in place of p." Document 02, §5: "A
//! first byte with high digit 1 (k = 2) or 3 (k = 3) selects" the Min-Max edition, "the low digit still
//! being p; the earlier edition remains for digits 0 and 2."

use std::ops::RangeInclusive;

use crate::field::Field;
use crate::refusal::Refusal;

/// How the costs of a choice's columns make the cost of the choice: the edition.
#[derive(Clone, Copy, Debug, PartialEq, Eq, PartialOrd, Ord, Hash)]
pub enum Join {
    /// "A choice costs the sum of its columns' Q."
    Sum,
    /// Document 02, §5: "a choice costs the greatest of its columns' costs and not their sum".
    Greatest,
}

impl Join {
    /// Both editions.
    pub const BOTH: RangeInclusive<Join> = Join::Sum..=Join::Greatest;

    /// The cost of a choice of this cost with one column more. A choice for no column costs 0.
    pub fn with(self, cost: i32, own: i32) -> i32 {
        match self {
            Join::Sum => cost + own,
            Join::Greatest => cost.max(own),
        }
    }
}

/// What a first byte says.
#[derive(Clone, Copy, Debug, PartialEq, Eq)]
pub struct Rule {
    field: Field,
    deviations: usize,
    join: Join,
}

impl Rule {
    /// The rule of a first byte, or refusal 6: "high digit above 3, or low digit outside 2 to 6".
    pub fn new(first: u8) -> Result<Rule, Refusal> {
        let (high_digit, low_digit) = (first / 16, first % 16);
        let (deviations, join) = match high_digit {
            0 => (2, Join::Sum),
            1 => (2, Join::Greatest),
            2 => (3, Join::Sum),
            3 => (3, Join::Greatest),
            _ => return Err(Refusal::FieldSize),
        };
        Ok(Rule {
            field: Field::new(low_digit)?,
            deviations,
            join,
        })
    }

    /// The field of the symbols.
    pub fn field(self) -> Field {
        self.field
    }

    /// k: "\"at most two\" reads \"at most k\"".
    pub fn deviations(self) -> usize {
        self.deviations
    }

    /// The edition.
    pub fn join(self) -> Join {
        self.join
    }
}
