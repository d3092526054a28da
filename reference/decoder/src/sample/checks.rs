//! First bytes, single checks and records.

use std::ops::RangeInclusive;

use super::{costs, Generator, Style};
use crate::rule::{Join, Rule};

/// The input of one accepted check.
#[derive(Clone, Debug, PartialEq, Eq)]
pub struct CheckSample {
    /// The first byte, as a code line has it.
    pub first: u8,
    /// The weight of each column; their number is the degree.
    pub weights: Vec<u8>,
    /// The costs, column by column.
    pub costs: Vec<u8>,
}

impl CheckSample {
    /// The rule of an accepted first byte.
    pub fn rule(&self) -> Rule {
        Rule::new(self.first).expect("an accepted first byte")
    }

    /// q, for an accepted first byte.
    pub fn q(&self) -> usize {
        self.rule().field().size()
    }

    /// d.
    pub fn degree(&self) -> usize {
        self.weights.len()
    }
}

/// An accepted first byte with p and k in the ranges, of either edition.
pub fn first_byte(
    generator: &mut Generator,
    p: RangeInclusive<u8>,
    k: RangeInclusive<usize>,
) -> u8 {
    first_byte_with(generator, p, k, Join::BOTH)
}

/// An accepted first byte with p, k and the edition in the ranges.
pub fn first_byte_with(
    generator: &mut Generator,
    p: RangeInclusive<u8>,
    k: RangeInclusive<usize>,
    join: RangeInclusive<Join>,
) -> u8 {
    let in_range = |rule: Rule| p.contains(&rule.field().p()) && k.contains(&rule.deviations());
    let fits = |rule: Rule| in_range(rule) && join.contains(&rule.join());
    let bytes = (0..=u8::MAX).filter(|&first| Rule::new(first).is_ok_and(fits));
    generator.one_of(&bytes.collect::<Vec<u8>>())
}

/// An accepted check with this first byte and a degree in the range.
pub fn check(
    generator: &mut Generator,
    first: u8,
    degree: RangeInclusive<usize>,
    style: Style,
) -> CheckSample {
    let field = Rule::new(first).expect("an accepted first byte").field();
    let degree = generator.between(degree);
    CheckSample {
        first,
        weights: weights(generator, field.p(), degree),
        costs: costs::columns(generator, field.size(), degree, style),
    }
}

/// Nonzero weights for a check.
pub fn weights(generator: &mut Generator, p: u8, degree: usize) -> Vec<u8> {
    let greatest = (1 << p) - 1;
    (0..degree).map(|_| generator.byte(1..=greatest)).collect()
}

/// A record of accepted form; most such records are written by no check.
pub fn record(generator: &mut Generator, first: u8, degree: usize) -> Vec<u8> {
    let rule = Rule::new(first).expect("an accepted first byte");
    let most = rule.deviations().min(degree);
    let greatest = (1 << rule.field().p()) - 1;
    let mut record: Vec<u8> = (0..degree).map(|_| generator.byte(0..=greatest)).collect();
    for _ in 1..=greatest {
        let extra = generator.byte(0..=255);
        let pairs = match extra {
            255 => 0,
            _ => generator.between(0..=most),
        };
        record.push(extra);
        for column in generator.rising(pairs, degree) {
            record.push(u8::try_from(column).expect("a column is below 32"));
            record.push(generator.byte(extra + 1..=255));
        }
        for _ in pairs..rule.deviations() {
            record.extend([0xFF, 0]);
        }
    }
    record
}
