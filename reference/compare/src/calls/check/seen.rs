//! What checks must meet beside their answers.

use reference_decoder::sample::CheckSample;

use super::lengths;
use crate::calls::first_byte::{self, ByDeviations, ByEdition, ByRule};
use crate::calls::{accepted_or_refused, REFUSED_DEGREES};
use crate::tally::{Class, Tally};

/// Accepted degrees at the bounds; k = 3 has more deviations than the other columns of a check of degree
/// 2 or 3 can take.
const DEGREES: [(usize, ByRule); 3] = [
    (
        2,
        [
            "degree 2, k 2",
            "degree 2, k 2, Min-Max",
            "degree 2, k 3",
            "degree 2, k 3, Min-Max",
        ],
    ),
    (
        3,
        [
            "degree 3, k 2",
            "degree 3, k 2, Min-Max",
            "degree 3, k 3",
            "degree 3, k 3, Min-Max",
        ],
    ),
    (
        32,
        [
            "degree 32, k 2",
            "degree 32, k 2, Min-Max",
            "degree 32, k 3",
            "degree 32, k 3, Min-Max",
        ],
    ),
];
/// Document 02, §1: "a cheapest choice may deviate in both columns, so E would be a cost nobody was
/// sent".
const CHEAPER_THAN_E: ByEdition = [
    "degree 2, a choice for both columns cheaper than E",
    "degree 2, a choice for both columns cheaper than E, Min-Max",
];
/// How many pairs some a of a record uses.
const PAIRS: [ByEdition; 4] = [
    ["0 pairs used", "0 pairs used, Min-Max"],
    ["1 pair used", "1 pair used, Min-Max"],
    ["2 pairs used", "2 pairs used, Min-Max"],
    ["3 pairs used", "3 pairs used, Min-Max"],
];
const GREATEST_COST: ByEdition = ["E 255", "E 255, Min-Max"];
/// Seen up to degree 8.
const OTHER_IN_OTHER_EDITION: ByEdition = [
    "a record that Min-Max has otherwise",
    "a record of Min-Max that the sum has otherwise",
];

const EXACT: ByDeviations = [
    "k 2, a record buffer of its length",
    "k 3, a record buffer of its length",
];
const SHORT_BY_ONE: ByDeviations = ["k 2, 4 by one byte of room", "k 3, 4 by one byte of room"];
/// Document 02, §3: "4 and 16 use the new length".
const OF_OTHER_LENGTH: ByDeviations = [
    "k 2, a record buffer for k 3",
    "k 3, 4 by a record buffer for k 2",
];

/// The classes of answers, and all that must be seen.
pub fn expected() -> Vec<Class> {
    let mut classes = accepted_or_refused(&[4, 6, 9, 11, 12, 13]);
    let by_deviations = [EXACT, SHORT_BY_ONE, OF_OTHER_LENGTH];
    let by_edition = [CHEAPER_THAN_E, GREATEST_COST, OTHER_IN_OTHER_EDITION];
    let seen = REFUSED_DEGREES.into_iter().chain(first_byte::names());
    let seen = seen.chain(by_deviations.into_iter().flatten());
    let seen = seen.chain(by_edition.into_iter().chain(PAIRS).flatten());
    let seen = seen.chain(DEGREES.into_iter().flat_map(|(_, names)| names));
    classes.extend(seen.map(Class::Seen));
    classes
}

/// Counts the lengths of the record buffer of a check that is accepted but for it.
pub fn see_room(tally: &mut Tally, input: &CheckSample, length: usize) {
    let [needed, other] = lengths(input);
    for (names, seen_length) in [
        (EXACT, needed),
        (SHORT_BY_ONE, needed - 1),
        (OF_OTHER_LENGTH, other),
    ] {
        let met = length == seen_length;
        first_byte::see_by_deviations(tally, input.rule(), names, met);
    }
}

/// Counts what an accepted check and its record show.
pub fn see(tally: &mut Tally, input: &CheckSample, record: &[u8]) {
    let rule = input.rule();
    first_byte::see(tally, input.first);
    for (degree, names) in DEGREES {
        first_byte::see_by_rule(tally, input.first, names, input.degree() == degree);
    }
    let entries = record[input.degree()..].chunks_exact(1 + 2 * rule.deviations());
    let used = |entry: &[u8]| entry[1..].iter().step_by(2).filter(|&&n| n != 0xFF).count();
    for (pairs, names) in PAIRS.into_iter().enumerate() {
        let met = entries.clone().any(|entry| used(entry) == pairs);
        first_byte::see_by_edition(tally, rule, names, met);
    }
    for (names, met) in [
        (CHEAPER_THAN_E, cheaper_than_extra(input, record)),
        (GREATEST_COST, entries.clone().any(|entry| entry[0] == 255)),
        (
            OTHER_IN_OTHER_EDITION,
            differs_in_other_edition(input, record),
        ),
    ] {
        first_byte::see_by_edition(tally, rule, names, met);
    }
}

/// Whether the check has at most eight columns and another record in the other edition.
fn differs_in_other_edition(input: &CheckSample, record: &[u8]) -> bool {
    if input.degree() > 8 {
        return false;
    }
    let first = first_byte::with_other_edition(input.first);
    let mut other = vec![0; record.len()];
    reference_decoder::check(first, &input.weights, &input.costs, &mut other)
        .expect("an accepted check");
    other != record
}

/// Whether the check has two columns and, for some a, a choice of their two symbols costs less than
/// E(a): neither column is sent that cost.
fn cheaper_than_extra(input: &CheckSample, record: &[u8]) -> bool {
    let (&[first, second], &[shift, other_shift]) = (&input.weights[..], &record[..2]) else {
        return false;
    };
    let term = |weight, x: usize| input.rule().field().product(weight, x as u8);
    let (entry_length, join) = (1 + 2 * input.rule().deviations(), input.rule().join());
    let (costs, other_costs) = input.costs.split_at(input.q());
    (0..input.q()).any(|x| {
        (0..input.q()).any(|y| {
            // The shifts of two columns add up to the sum of all h_k times z_k.
            let a = term(first, x) ^ term(second, y) ^ shift ^ other_shift;
            let cost = join.with(i32::from(costs[x]), i32::from(other_costs[y]));
            a != 0 && cost < i32::from(record[2 + entry_length * (usize::from(a) - 1)])
        })
    })
}

#[cfg(test)]
mod tests {
    use reference_decoder::sample;

    use super::*;

    #[test]
    fn a_choice_for_both_columns_may_be_cheaper_than_e() {
        let cheaper = |first: u8, costs: &str, record: &str| {
            let input = CheckSample {
                first,
                weights: vec![1, 1],
                costs: sample::bytes(costs),
            };
            cheaper_than_extra(&input, &sample::bytes(record))
        };
        let record = "0000 09FF00FF00 010009FF00 010109FF00";
        assert!(cheaper(0x02, "00090109 00090901", record));
        // Column 0 decides on 1, so that the shifts are 0 and 1.
        let record = "0001 09FF00FF00 010109FF00 010009FF00";
        assert!(cheaper(0x02, "09000901 00090901", record));
        let record = "0000 0100090101 0100090101 01FF00FF00";
        assert!(!cheaper(0x02, "00010101 00010101", record));
        // Symbols 2 and 3 cost 2 together, or 1 in the Min-Max edition.
        let record = "0000 02FF00FF00 010002FF00 010102FF00";
        assert!(!cheaper(0x02, "00020102 00020201", record));
        assert!(cheaper(0x12, "00020102 00020201", record));
    }
}
