//! The first bytes of codes, checks and expansions. Document 02, §3: "a first code byte of 22 to 26
//! hexadecimal means k = 3 with p in its low digit". Document 02, §5: "A first byte with high digit 1 (k = 2)
//! or 3 (k = 3) selects" the Min-Max edition.

use std::ops::RangeInclusive;

use reference_decoder::sample::{self, Generator, Size};
use reference_decoder::{Join, Rule};

use crate::tally::Tally;

/// Every first byte there is.
pub const ALL: RangeInclusive<u8> = 0..=u8::MAX;

/// The accepted ones, each with the name under which accepted calls are counted.
const ACCEPTED: [(u8, &str); 20] = [
    (0x02, "first byte 02"),
    (0x03, "first byte 03"),
    (0x04, "first byte 04"),
    (0x05, "first byte 05"),
    (0x06, "first byte 06"),
    (0x12, "first byte 12"),
    (0x13, "first byte 13"),
    (0x14, "first byte 14"),
    (0x15, "first byte 15"),
    (0x16, "first byte 16"),
    (0x22, "first byte 22"),
    (0x23, "first byte 23"),
    (0x24, "first byte 24"),
    (0x25, "first byte 25"),
    (0x26, "first byte 26"),
    (0x32, "first byte 32"),
    (0x33, "first byte 33"),
    (0x34, "first byte 34"),
    (0x35, "first byte 35"),
    (0x36, "first byte 36"),
];

/// What accepted calls are counted as, one name for each k.
pub type ByDeviations = [&'static str; 2];
/// The same, one name for each edition: the sum, and the greatest.
pub type ByEdition = [&'static str; 2];
/// The same, one name for each high digit: k = 2 and k = 3, each with the sum and with the greatest.
pub type ByRule = [&'static str; 4];

/// The names of the accepted ones.
pub fn names() -> impl Iterator<Item = &'static str> {
    ACCEPTED.into_iter().map(|(_, name)| name)
}

/// Counts the first byte of an accepted call.
pub fn see(tally: &mut Tally, first: u8) {
    for (byte, name) in ACCEPTED {
        tally.seen(name, byte == first);
    }
}

/// Counts something under the name for the k of a rule, if it was met.
pub fn see_by_deviations(tally: &mut Tally, rule: Rule, names: ByDeviations, met: bool) {
    tally.seen(names[rule.deviations() - 2], met);
}

/// Counts something under the name for the edition of a rule, if it was met.
pub fn see_by_edition(tally: &mut Tally, rule: Rule, names: ByEdition, met: bool) {
    let name = match rule.join() {
        Join::Sum => names[0],
        Join::Greatest => names[1],
    };
    tally.seen(name, met);
}

/// Counts something under the name for the high digit of an accepted first byte, if it was met.
pub fn see_by_rule(tally: &mut Tally, first: u8, names: ByRule, met: bool) {
    tally.seen(names[usize::from(first >> 4)], met);
}

/// Any accepted one.
pub fn drawn(generator: &mut Generator) -> u8 {
    sample::first_byte(generator, 2..=6, 2..=3)
}

/// This one where it is accepted, else any accepted one: for inputs in which nothing but the first byte
/// is refused.
pub fn accepted_or_drawn(generator: &mut Generator, first: u8) -> u8 {
    match Rule::new(first) {
        Ok(_) => first,
        Err(_) => drawn(generator),
    }
}

/// Codes of a few columns with this accepted one.
pub fn small_codes(first: u8) -> Size {
    with_size(first, Size::SMALL)
}

/// Codes of a size with this accepted one.
pub fn with_size(first: u8, size: Size) -> Size {
    let rule = Rule::new(first).expect("an accepted first byte");
    let (p, k, join) = (rule.field().p(), rule.deviations(), rule.join());
    Size {
        p: p..=p,
        k: k..=k,
        join: join..=join,
        ..size
    }
}

/// The accepted one with the same p and edition and the other k.
pub fn with_other_deviations(first: u8) -> u8 {
    first ^ 0x20
}

/// The accepted one with the same p and k and the other edition.
pub fn with_other_edition(first: u8) -> u8 {
    first ^ 0x10
}

#[cfg(test)]
mod tests {
    use super::*;

    #[test]
    fn the_accepted_ones_are_named() {
        let accepted = ALL.filter(|&first| Rule::new(first).is_ok());
        assert!(accepted.eq(ACCEPTED.map(|(first, _)| first)));
        for (first, name) in ACCEPTED {
            assert_eq!(name, format!("first byte {first:02X}"));
        }
    }

    fn rule(first: u8) -> Rule {
        Rule::new(first).expect("an accepted first byte")
    }

    #[test]
    fn the_other_deviations_of_the_same_field_and_edition() {
        for (first, _) in ACCEPTED {
            let [one, other] = [first, with_other_deviations(first)].map(rule);
            assert_eq!((one.field(), one.join()), (other.field(), other.join()));
            assert_eq!(one.deviations() + other.deviations(), 5);
        }
    }

    #[test]
    fn the_other_edition_of_the_same_field_and_deviations() {
        for (first, _) in ACCEPTED {
            let [one, other] = [first, with_other_edition(first)].map(rule);
            assert_eq!(one.field(), other.field());
            assert_eq!(one.deviations(), other.deviations());
            assert_ne!(one.join(), other.join());
        }
    }
}
