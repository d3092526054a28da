//! Document 01, "Record", at the degrees of document 02, §1, with the pairs of §3 and in both editions of §5.

use std::collections::HashMap;

use reference_decoder::check::Messages;
use reference_decoder::sample::{self, bytes, CheckSample, Generator, Style};
use reference_decoder::{check, expand, record, Rule};

fn record(sample: &CheckSample) -> Vec<u8> {
    let mut record = vec![0; record::length(sample.rule(), sample.degree())];
    let written = check(sample.first, &sample.weights, &sample.costs, &mut record);
    assert_eq!(written, Ok(record.len()));
    record
}

fn expansion(first: u8, weights: &[u8], record: &[u8]) -> Vec<u8> {
    let q = Rule::new(first)
        .expect("an accepted first byte")
        .field()
        .size();
    let mut out = vec![0; weights.len() * q];
    assert_eq!(expand(first, weights, record, &mut out), Ok(out.len()));
    out
}

fn messages(sample: &CheckSample) -> Messages {
    Messages::new(sample.rule(), &sample.weights, &sample.costs)
}

#[test]
fn the_expansion_of_a_record_is_the_sent_costs() {
    let mut generator = Generator::new(10);
    for style in Style::ALL {
        for count in 0..50 {
            let degree = match count {
                0 => 32..=32,
                1..10 => 2..=2,
                _ => 2..=12,
            };
            let first = sample::first_byte(&mut generator, 2..=6, 2..=3);
            let sample = sample::check(&mut generator, first, degree, style);
            let sent = messages(&sample).sent.concat();
            assert_eq!(expansion(first, &sample.weights, &record(&sample)), sent);
        }
    }
}

/// Makes 4,000 checks with costs that are drawn, and answers how many records were met again. Records
/// are equal exactly when shifts and sent costs are.
fn compare_records(first: u8, weights: &[u8], mut draw: impl FnMut() -> Vec<u8>) -> usize {
    let mut by_record: HashMap<Vec<u8>, (Vec<u8>, Vec<u8>)> = HashMap::new();
    let mut by_messages: HashMap<(Vec<u8>, Vec<u8>), Vec<u8>> = HashMap::new();
    let mut repeated = 0;
    for _ in 0..4_000 {
        let sample = CheckSample {
            first,
            weights: weights.to_vec(),
            costs: draw(),
        };
        let (record, messages) = (record(&sample), messages(&sample));
        let meaning = (messages.shifts, messages.sent.concat());
        repeated += usize::from(by_record.contains_key(&record));
        let known = by_record.entry(record.clone()).or_insert(meaning.clone());
        assert_eq!(known, &meaning);
        let known = by_messages.entry(meaning).or_insert(record.clone());
        assert_eq!(known, &record);
    }
    assert!(by_record.len() > 20);
    repeated
}

#[test]
fn records_are_equal_exactly_when_shifts_and_sent_costs_are() {
    let mut generator = Generator::new(11);
    for weights in [
        vec![1, 1],
        vec![2, 3],
        vec![1, 1, 1],
        vec![1, 2, 3],
        vec![3, 1, 1, 2],
    ] {
        for first in [0x02, 0x12, 0x22, 0x32] {
            let repeated = compare_records(first, &weights, || {
                let costs = sample::columns(&mut generator, 4, weights.len(), Style::NearZero);
                costs.into_iter().map(|cost| cost % 2).collect()
            });
            assert!(repeated > 1_000);
        }
    }
}

/// The cost of symbol x in a column with one cheap symbol.
fn cost(x: usize, cheap: usize) -> u8 {
    match x {
        0 => 0,
        _ if x == cheap => 1,
        _ => 9,
    }
}

/// The same where a third deviation counts: a column has at most one cheap symbol, 1, 2 or 4.
#[test]
fn records_of_three_deviations_are_equal_exactly_when_shifts_and_sent_costs_are() {
    let mut generator = Generator::new(13);
    for first in [0x23, 0x33] {
        let mut of_three = 0;
        let repeated = compare_records(first, &[1; 5], || {
            let cheap = [0; 5].map(|_| generator.one_of(&[0, 1, 2, 4]));
            of_three += usize::from([1, 2, 4].iter().all(|symbol| cheap.contains(symbol)));
            let column = |cheap: usize| (0..8).map(move |x| cost(x, cheap));
            cheap.into_iter().flat_map(column).collect()
        });
        assert!(
            repeated > 1_000 && of_three > 1_000,
            "{repeated}, {of_three}"
        );
    }
}

#[test]
fn equal_sent_costs_with_different_shifts_make_different_records() {
    let first = CheckSample {
        first: 2,
        weights: vec![1; 3],
        costs: bytes("05000505 00000000 00000000"),
    };
    let second = CheckSample {
        costs: bytes("05050005 00000000 00000000"),
        ..first.clone()
    };
    assert_eq!(messages(&first).sent, messages(&second).sent);
    assert_ne!(record(&first), record(&second));
}

/// With two columns a check never lists both, but a record of accepted form may.
#[test]
fn a_record_of_degree_2_that_lists_both_columns_expands() {
    let record = bytes("0102 0900FF010A FFFF00FF00 000101FF00");
    // For x = 0 to 3, a is 1 0 3 2 in column 0 and 2 0 1 3 in column 1.
    let expected = bytes("FF0000FF FF000A01");
    assert_eq!(expansion(2, &[1, 2], &record), expected);
}

#[test]
fn a_record_that_no_check_wrote_expands() {
    let record = bytes("010203 0900FF020A FFFF00FF00 000101FF00");
    // For x = 0 to 3, a is 1 0 3 2 in column 0, 2 0 1 3 in column 1 and 3 0 2 1 in column 2.
    let expected = bytes("FF0000FF FF000901 0000FF0A");
    assert_eq!(expansion(2, &[1, 2, 3], &record), expected);
    let record = bytes("010203 0900FF020AFF00 FFFF00FF00FF00 00000101030205");
    let expected = bytes("FF0001FF FF000903 0500FF0A");
    assert_eq!(expansion(0x22, &[1, 2, 3], &record), expected);
}

#[test]
fn every_record_of_accepted_form_expands_to_its_entries() {
    let mut generator = Generator::new(12);
    for _ in 0..400 {
        let first = sample::first_byte(&mut generator, 2..=6, 2..=3);
        let rule = Rule::new(first).unwrap();
        let (field, entry_length) = (rule.field(), 1 + 2 * rule.deviations());
        let degree = generator.between(2..=32);
        let weights = sample::weights(&mut generator, field.p(), degree);
        let record = sample::record(&mut generator, first, degree);
        let expansion = expansion(first, &weights, &record);
        for (place, &cost) in expansion.iter().enumerate() {
            let (n, x) = (place / field.size(), place % field.size());
            let a = usize::from(field.product(weights[n], x as u8) ^ record[n]);
            if a == 0 {
                assert_eq!(cost, 0);
                continue;
            }
            let entry = &record[degree + entry_length * (a - 1)..][..entry_length];
            let place = (1..entry_length)
                .step_by(2)
                .find(|&place| usize::from(entry[place]) == n);
            assert_eq!(cost, entry[place.map_or(0, |place| place + 1)]);
        }
    }
}
