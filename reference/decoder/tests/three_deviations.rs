//! Document 02, §3: "Three deviations."

use reference_decoder::check::Messages;
use reference_decoder::sample::{self, bytes, CheckSample, Generator, Style};
use reference_decoder::{check, expand, record, Rule};

/// Symbol 1 of column 0, 2 of column 1 and 4 of column 2 cost 1, all else but the decisions 9.
const COSTS: [&str; 4] = [
    "0001090909090909",
    "0009010909090909",
    "0009090901090909",
    "0009090909090909",
];

fn rule(first: u8) -> Rule {
    Rule::new(first).expect("an accepted first byte")
}

/// The record of a check with weights 1, in a buffer of its length.
fn record_of(first: u8, costs: &[&str]) -> Vec<u8> {
    let mut record = vec![0xA5; record::length(rule(first), costs.len())];
    let weights = vec![1; costs.len()];
    let written = check(first, &weights, &bytes(&costs.concat()), &mut record);
    assert_eq!(written, Ok(record.len()));
    record
}

/// By hand, in the order of a: 1, 2 and 4 by one deviation, 3, 5 and 6 by two, 7 by three. A column of
/// the cheapest choice is sent 9.
#[test]
fn a_record_with_three_pairs() {
    let expected = bytes(
        "00000000 010009FF00FF00 010109FF00FF00 0200090109FF00 010209FF00FF00 0200090209FF00 \
         0201090209FF00 03000901090209",
    );
    assert_eq!(record_of(0x23, &COSTS), expected);
    let mut sent = [0xA5; 33];
    assert_eq!(expand(0x23, &[1; 4], &expected, &mut sent), Ok(32));
    let expected = bytes("0009010901090209 0001090901020909 0001010209090909 0001010201020203 A5");
    assert_eq!(sent[..], expected);
}

/// The same check with k = 2: no choice of two deviations makes 7 for less than 9.
#[test]
fn the_same_check_with_two_deviations() {
    let expected = bytes(
        "00000000 010009FF00 010109FF00 0200090109 010209FF00 0200090209 0201090209 09FF00FF00",
    );
    assert_eq!(record_of(0x03, &COSTS), expected);
}

/// Without column 3 the choice that makes 7 for 3 deviates in every column: nobody is sent its cost.
#[test]
fn the_cheapest_choice_of_three_columns_may_be_sent_to_nobody() {
    let expected = bytes(
        "000000 010009FF00FF00 010109FF00FF00 0200090109FF00 010209FF00FF00 0200090209FF00 \
         0201090209FF00 09FF00FF00FF00",
    );
    assert_eq!(record_of(0x23, &COSTS[..3]), expected);
}

/// "A record then has 1 + 2k bytes a symbol"
#[test]
fn lengths_of_records() {
    for (first, degree, expected) in [
        (0x02, 2, 2 + 15),
        (0x22, 2, 2 + 21),
        (0x03, 3, 3 + 35),
        (0x23, 3, 3 + 49),
        (0x24, 8, 8 + 105),
        (0x25, 24, 24 + 217),
        (0x06, 32, 347),
        (0x26, 32, 473),
    ] {
        assert_eq!(record::length(rule(first), degree), expected);
    }
}

/// "with up to k pairs": the columns above E, rising, then unused pairs, and as many as there are.
#[test]
fn the_pairs_are_the_columns_above_e() {
    let mut generator = Generator::new(1);
    let mut met = [0; 4];
    for style in Style::ALL.repeat(60) {
        let first = sample::first_byte(&mut generator, 2..=6, 3..=3);
        let sample = sample::check(&mut generator, first, 2..=10, style);
        let (weights, costs) = (&sample.weights, &sample.costs);
        let messages = Messages::new(sample.rule(), weights, costs);
        let mut record = vec![0; record::length(sample.rule(), sample.degree())];
        check(first, weights, costs, &mut record).expect("an accepted check");
        let (shifts, entries) = record.split_at(sample.degree());
        assert_eq!(shifts, messages.shifts);
        assert_eq!(entries.len(), 7 * (sample.q() - 1));
        for (a, entry) in (1..).zip(entries.chunks_exact(7)) {
            let extra = messages.extra[a];
            let sent = messages.sent_at_sum.iter().enumerate();
            let above = sent.filter(|(_, costs)| costs[a] > extra);
            let mut expected = vec![extra];
            expected.extend(above.flat_map(|(n, costs)| [n as u8, costs[a]]));
            met[expected.len() / 2] += 1;
            while expected.len() < 7 {
                expected.extend([0xFF, 0]);
            }
            assert_eq!(entry, expected);
        }
    }
    assert!(met.iter().all(|&count| count > 200), "{met:?}");
}

/// The expansion of a written record is what was sent.
#[test]
fn the_expansion_of_a_record_is_the_sent_costs() {
    let mut generator = Generator::new(2);
    for round in 0..400 {
        let degree = match round {
            0..4 => 32..=32,
            4..100 => 2..=4,
            _ => 2..=12,
        };
        let first = sample::first_byte(&mut generator, 2..=6, 3..=3);
        let sample = sample::check(&mut generator, first, degree, Style::ALL[round % 5]);
        let (weights, costs) = (&sample.weights, &sample.costs);
        let mut record = vec![0; record::length(sample.rule(), sample.degree())];
        check(first, weights, costs, &mut record).expect("an accepted check");
        let mut out = vec![0; costs.len()];
        assert_eq!(expand(first, weights, &record, &mut out), Ok(out.len()));
        assert_eq!(
            out,
            Messages::new(sample.rule(), weights, costs).sent.concat()
        );
    }
}

/// With a third deviation no sent cost is greater. With two others or one it is the same, and over four
/// elements too: three different deviations there add up to 0, and where two are equal the third alone
/// costs no more.
#[test]
fn a_third_deviation_only_makes_costs_less() {
    let mut generator = Generator::new(3);
    let (mut compared, mut less) = (0, 0);
    for style in Style::ALL.repeat(100) {
        let first = sample::first_byte(&mut generator, 2..=5, 3..=3);
        let sample = sample::check(&mut generator, first, 2..=8, style);
        let [two, three] = [first & 0x1F, first]
            .map(|first| Messages::new(rule(first), &sample.weights, &sample.costs));
        assert_eq!(
            (&two.decisions, &two.shifts),
            (&three.decisions, &three.shifts)
        );
        if sample.degree() <= 3 || sample.q() == 4 {
            assert_eq!(two, three);
        }
        for (two, three) in two.sent.concat().into_iter().zip(three.sent.concat()) {
            assert!(three <= two);
            less += usize::from(three < two);
            compared += 1;
        }
    }
    assert!(less > compared / 100, "{less} of {compared}");
}

/// "Old code lines give the old bytes": with k = 2 a record has five bytes a symbol, and its first two
/// pairs are those of k = 3 where no third deviation helps.
#[test]
fn where_no_third_deviation_helps_the_records_differ_by_unused_pairs() {
    let mut generator = Generator::new(4);
    for style in Style::ALL.repeat(20) {
        let first = sample::first_byte(&mut generator, 2..=6, 3..=3);
        let sample = sample::check(&mut generator, first, 2..=3, style);
        let CheckSample { weights, costs, .. } = &sample;
        let [two, three] = [first & 0x1F, first].map(|first| {
            let mut record = vec![0; record::length(rule(first), weights.len())];
            check(first, weights, costs, &mut record).expect("an accepted check");
            record
        });
        let (shifts, entries) = three.split_at(weights.len());
        assert_eq!(two[..weights.len()], *shifts);
        let shorter = two[weights.len()..].chunks_exact(5);
        for (shorter, entry) in shorter.zip(entries.chunks_exact(7)) {
            assert_eq!([shorter, &[0xFF, 0]].concat(), entry);
        }
    }
}
