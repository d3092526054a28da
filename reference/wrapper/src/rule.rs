//! The first byte of a code line, which `check`, `sweep`, `expand` and `display` take too.

use crate::refusal::Refusal;

/// What a choice costs.
#[derive(Clone, Copy, Debug, PartialEq, Eq, PartialOrd, Ord, Hash)]
pub enum Edition {
    /// "A choice costs the sum of its columns' Q."
    Sum,
    /// Min-Max, document 02, §5: "a choice costs the greatest of its columns' costs and not their sum".
    Greatest,
}

/// What an accepted first byte says: p in its low digit; in its high digit k and the edition, 0 for k = 2
/// with the sum, 1 for k = 2 with the greatest, 2 for k = 3 with the sum, 3 for k = 3 with the greatest.
///
/// ```
/// use petsivola::{Edition, Rule};
///
/// const RULE: Option<Rule> = Rule::new(5, 2, Edition::Greatest);
/// assert_eq!(RULE.map(Rule::first), Some(0x15));
/// assert_eq!(Rule::of(0x15), RULE);
/// ```
#[derive(Clone, Copy, Debug, PartialEq, Eq, PartialOrd, Ord, Hash)]
pub struct Rule {
    p: u8,
    deviations: u8,
    edition: Edition,
}

impl Rule {
    /// The rule with this p, 2 to 6, this k, 2 or 3, and this edition; none with another p or k.
    pub const fn new(p: u8, deviations: u8, edition: Edition) -> Option<Rule> {
        match (p, deviations) {
            (2..=6, 2 | 3) => Some(Rule {
                p,
                deviations,
                edition,
            }),
            _ => None,
        }
    }

    /// The rule of a first byte; none where it is refused by 6, "high digit above 3, or low digit outside
    /// 2 to 6".
    pub const fn of(first: u8) -> Option<Rule> {
        let (deviations, edition) = match first >> 4 {
            0 => (2, Edition::Sum),
            1 => (2, Edition::Greatest),
            2 => (3, Edition::Sum),
            3 => (3, Edition::Greatest),
            _ => return None,
        };
        Rule::new(first & 0x0F, deviations, edition)
    }

    /// The first byte.
    pub const fn first(self) -> u8 {
        let high_digit = match (self.deviations, self.edition) {
            (2, Edition::Sum) => 0,
            (2, Edition::Greatest) => 1,
            (_, Edition::Sum) => 2,
            (_, Edition::Greatest) => 3,
        };
        high_digit << 4 | self.p
    }

    /// p.
    pub const fn p(self) -> u8 {
        self.p
    }

    /// q, the number of elements of the field.
    pub const fn elements(self) -> usize {
        1 << self.p
    }

    /// k, the most deviations of a choice.
    pub const fn deviations(self) -> usize {
        self.deviations as usize
    }

    /// What a choice costs.
    pub const fn edition(self) -> Edition {
        self.edition
    }
}

impl TryFrom<u8> for Rule {
    type Error = Refusal;

    /// The rule of a first byte, or refusal 6.
    fn try_from(first: u8) -> Result<Rule, Refusal> {
        Rule::of(first).ok_or(Refusal::FieldSize)
    }
}

impl From<Rule> for u8 {
    fn from(rule: Rule) -> u8 {
        rule.first()
    }
}

#[cfg(test)]
mod tests {
    use super::*;

    #[test]
    fn every_first_byte() {
        let mut accepted = 0;
        for first in 0..=u8::MAX {
            let is_accepted = first >> 4 <= 3 && (2..=6).contains(&(first & 0x0F));
            let rule = Rule::of(first);
            assert_eq!(rule.is_some(), is_accepted);
            assert_eq!(Rule::try_from(first), rule.ok_or(Refusal::FieldSize));
            accepted += usize::from(is_accepted);
            let Some(rule) = rule else { continue };
            assert_eq!((rule.first(), u8::from(rule)), (first, first));
            assert_eq!(rule.p(), first & 0x0F);
            assert_eq!(rule.elements(), 1 << rule.p());
            let greatest = rule.edition() == Edition::Greatest;
            let high_digit = 2 * (rule.deviations() - 2) + usize::from(greatest);
            assert_eq!(high_digit, usize::from(first >> 4));
        }
        assert_eq!(accepted, 20);
    }

    #[test]
    fn every_p_k_and_edition() {
        for p in 0..=u8::MAX {
            for deviations in 0..=u8::MAX {
                for edition in [Edition::Sum, Edition::Greatest] {
                    let rule = Rule::new(p, deviations, edition);
                    let is_rule = (2..=6).contains(&p) && (2..=3).contains(&deviations);
                    assert_eq!(rule.is_some(), is_rule);
                    let Some(rule) = rule else { continue };
                    assert_eq!(rule.deviations(), usize::from(deviations));
                    assert_eq!(Rule::of(rule.first()), Some(rule));
                }
            }
        }
    }
}
