//! The causes of refusal 16.

use std::collections::BTreeSet;

use reference_decoder::{record, Rule};

use crate::calls::first_byte::ByDeviations;

/// "16, length wrong, shift not below q, an unused pair that is not FF 00 or stands before a used
/// one, columns not rising or not below d, or S not above E".
#[derive(Clone, Copy, Debug, PartialEq, Eq, PartialOrd, Ord)]
pub enum Cause {
    Length,
    Shift,
    NotFf00,
    BeforeUsed,
    NotRising,
    NotBelowD,
    NotAboveE,
}

impl Cause {
    pub const ALL: [Cause; 7] = [
        Cause::Length,
        Cause::Shift,
        Cause::NotFf00,
        Cause::BeforeUsed,
        Cause::NotRising,
        Cause::NotBelowD,
        Cause::NotAboveE,
    ];

    /// What a refusal with no other cause is counted as.
    pub fn names(self) -> ByDeviations {
        match self {
            Cause::Length => ["k 2, 16 by length alone", "k 3, 16 by length alone"],
            Cause::Shift => ["k 2, 16 by a shift alone", "k 3, 16 by a shift alone"],
            Cause::NotFf00 => [
                "k 2, 16 by an unused pair not FF 00 alone",
                "k 3, 16 by an unused pair not FF 00 alone",
            ],
            Cause::BeforeUsed => [
                "k 2, 16 by an unused pair before a used one alone",
                "k 3, 16 by an unused pair before a used one alone",
            ],
            Cause::NotRising => [
                "k 2, 16 by columns not rising alone",
                "k 3, 16 by columns not rising alone",
            ],
            Cause::NotBelowD => [
                "k 2, 16 by a column not below d alone",
                "k 3, 16 by a column not below d alone",
            ],
            Cause::NotAboveE => [
                "k 2, 16 by an S not above E alone",
                "k 3, 16 by an S not above E alone",
            ],
        }
    }
}

/// Every cause that a record has.
pub fn causes(rule: Rule, degree: usize, record: &[u8]) -> BTreeSet<Cause> {
    if record.len() != record::length(rule, degree) {
        return BTreeSet::from([Cause::Length]);
    }
    let (shifts, entries) = record.split_at(degree);
    let mut causes = BTreeSet::new();
    if shifts.iter().any(|&shift| !rule.field().contains(shift)) {
        causes.insert(Cause::Shift);
    }
    for entry in entries.chunks_exact(1 + 2 * rule.deviations()) {
        causes.extend(causes_of_entry(degree, entry));
    }
    causes
}

/// Every cause that the bytes of one a have.
fn causes_of_entry(degree: usize, entry: &[u8]) -> Vec<Cause> {
    let (pairs, _) = entry[1..].as_chunks();
    let is_unused = |pair: &[u8; 2]| pair[0] == 0xFF;
    let mut causes = Vec::new();
    for pair in pairs {
        let unused = is_unused(pair);
        causes.extend((unused && pair[1] != 0).then_some(Cause::NotFf00));
        causes.extend((!unused && usize::from(pair[0]) >= degree).then_some(Cause::NotBelowD));
        causes.extend((!unused && pair[1] <= entry[0]).then_some(Cause::NotAboveE));
    }
    let next_to = pairs.iter().zip(&pairs[1..]);
    for (before, used) in next_to.filter(|(_, pair)| !is_unused(pair)) {
        let unused = is_unused(before);
        causes.extend(unused.then_some(Cause::BeforeUsed));
        causes.extend((!unused && used[0] <= before[0]).then_some(Cause::NotRising));
    }
    causes
}

#[cfg(test)]
mod tests {
    use reference_decoder::sample;

    use super::*;

    /// A record of accepted form for a first byte and degree 3, one change in it, and the causes then.
    fn causes_with(first: u8, record: &str, place: usize, value: u8) -> Vec<Cause> {
        let rule = Rule::new(first).expect("an accepted first byte");
        let mut record = sample::bytes(record);
        assert_eq!(causes(rule, 3, &record), BTreeSet::new());
        record[place] = value;
        causes(rule, 3, &record).into_iter().collect()
    }

    #[test]
    fn each_cause_alone() {
        let record = "000102 05 0006 0109 05 01FF FF00 05 FF00 FF00";
        let causes_with = |place, value| causes_with(0x02, record, place, value);
        assert_eq!(causes_with(0, 4), [Cause::Shift]);
        assert_eq!(causes_with(12, 1), [Cause::NotFf00]);
        assert_eq!(causes_with(6, 0), [Cause::NotRising]);
        assert_eq!(causes_with(6, 3), [Cause::NotBelowD]);
        assert_eq!(causes_with(5, 5), [Cause::NotAboveE]);
    }

    #[test]
    fn each_cause_alone_with_three_pairs() {
        let record = "000102 05 0006 0109 0207 05 01FF FF00 FF00 05 FF00 FF00 FF00";
        let causes_with = |place, value| causes_with(0x22, record, place, value);
        assert_eq!(causes_with(16, 1), [Cause::NotFf00]);
        assert_eq!(causes_with(8, 1), [Cause::NotRising]);
        assert_eq!(causes_with(8, 3), [Cause::NotBelowD]);
        assert_eq!(causes_with(9, 5), [Cause::NotAboveE]);
        assert_eq!(causes_with(6, 255), [Cause::NotFf00, Cause::BeforeUsed]);
    }

    #[test]
    fn an_unused_pair_before_a_used_one() {
        let rule = Rule::new(0x02).expect("an accepted first byte");
        let mut record = sample::bytes("000102 05 FF00 0109 05 FF00 FF00 05 FF00 FF00");
        assert_eq!(
            causes(rule, 3, &record),
            BTreeSet::from([Cause::BeforeUsed])
        );
        record[5] = 1;
        let expected = BTreeSet::from([Cause::BeforeUsed, Cause::NotFf00]);
        assert_eq!(causes(rule, 3, &record), expected);
        let rule = Rule::new(0x22).expect("an accepted first byte");
        let record = sample::bytes("000102 05 0006 FF00 0109 05 FF00 FF00 FF00 05 FF00 FF00 FF00");
        assert_eq!(
            causes(rule, 3, &record),
            BTreeSet::from([Cause::BeforeUsed])
        );
    }

    #[test]
    fn a_length_is_that_of_its_k() {
        for (first, other) in [(0x02, 24), (0x22, 18)] {
            let rule = Rule::new(first).expect("an accepted first byte");
            let expected = BTreeSet::from([Cause::Length]);
            assert_eq!(causes(rule, 3, &vec![0; other]), expected);
        }
    }
}
