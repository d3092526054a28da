//! Document 02, §11: "Bench view and display view."

use reference_decoder::check::Messages;
use reference_decoder::field::{sum, Field};
use reference_decoder::sample::{self, bytes, CheckSample, Generator, Style};
use reference_decoder::{check, display, expand, record, Rule};

/// What the display shows of an accepted record, in a buffer of d bytes.
fn shown(first: u8, weights: &[u8], record: &[u8]) -> Vec<u8> {
    let mut out = vec![0xA5; weights.len()];
    assert_eq!(display(first, weights, record, &mut out), Ok(weights.len()));
    out
}

/// What the bench reads of it.
fn expansion(first: u8, weights: &[u8], record: &[u8]) -> Vec<u8> {
    let q = Rule::new(first)
        .expect("an accepted first byte")
        .field()
        .size();
    let mut out = vec![0xA5; weights.len() * q];
    assert_eq!(expand(first, weights, record, &mut out), Ok(out.len()));
    out
}

/// An accepted check of any size, small ones more often, and its record.
fn written(generator: &mut Generator) -> (CheckSample, Vec<u8>) {
    let first = sample::first_byte(generator, 2..=6, 2..=3);
    let degree = match generator.below(40) {
        0 => 32..=32,
        1..8 => 2..=2,
        _ => 2..=8,
    };
    let style = generator.one_of(&Style::ALL);
    let sample = sample::check(generator, first, degree, style);
    let mut record = vec![0; record::length(sample.rule(), sample.degree())];
    let answer = check(first, &sample.weights, &sample.costs, &mut record);
    assert_eq!(answer, Ok(record.len()));
    (sample, record)
}

/// The first bytes of a field: both k, in both editions.
fn firsts(p: u8) -> [u8; 4] {
    [0x00, 0x10, 0x20, 0x30].map(|high_digit| high_digit | p)
}

/// A record of accepted form with these shifts; the rest is drawn.
fn with_shifts(generator: &mut Generator, first: u8, shifts: &[u8]) -> Vec<u8> {
    let mut record = sample::record(generator, first, shifts.len());
    record[..shifts.len()].copy_from_slice(shifts);
    record
}

/// The bench table: "Weights 1, 2, 3, decisions all 1: shifts 010203." Each column was urged towards the 1 that it has.
/// Then 3 / 2 = 3 times 3 = 2 and 1 / 3 = 2.
#[test]
fn records_by_hand() {
    let rest = "0900FF020A FFFF00FF00 000101FF00";
    let mut out = [0xA5; 5];
    let record = bytes(&format!("010203 {rest}"));
    assert_eq!(display(2, &[1, 2, 3], &record, &mut out), Ok(3));
    assert_eq!(out, [1, 1, 1, 0xA5, 0xA5]);
    let record = bytes(&format!("000301 {rest}"));
    assert_eq!(shown(2, &[1, 2, 3], &record), [0, 2, 2]);
}

/// "divided by the weights": each shift by each weight in each field.
#[test]
fn weight_times_shown_symbol_is_the_shift() {
    let mut generator = Generator::new(110);
    for p in 2..=6 {
        let field = Field::new(p).expect("p is 2 to 6");
        for weight in field.elements().skip(1) {
            for shift in field.elements() {
                let record = with_shifts(&mut generator, p, &[shift, 0]);
                let [symbol, other] = shown(p, &[weight, 1], &record)[..] else {
                    panic!("two symbols");
                };
                assert!(field.contains(symbol));
                assert_eq!((field.product(weight, symbol), other), (shift, 0));
            }
        }
    }
}

/// "the display bytes are equal exactly when the shifts are, however their costs and pairs differ": also with another k
/// and in the other edition.
#[test]
fn equal_exactly_when_the_shifts_are() {
    let mut generator = Generator::new(111);
    for round in 0..2_000 {
        let p = generator.byte(2..=6);
        let degree = generator.between(2..=32);
        let weights = sample::weights(&mut generator, p, degree);
        let greatest = (1 << p) - 1;
        let shifts: Vec<u8> = (0..degree).map(|_| generator.byte(0..=greatest)).collect();
        let mut others = shifts.clone();
        let change = generator.byte(1..=greatest);
        others[round % degree] ^= change;
        let [one, other] = [0, 1].map(|_| generator.one_of(&firsts(p)));
        let record = with_shifts(&mut generator, one, &shifts);
        let same_shifts = with_shifts(&mut generator, other, &shifts);
        let other_shifts = with_shifts(&mut generator, other, &others);
        assert_ne!(record, same_shifts);
        let symbols = shown(one, &weights, &record);
        assert_eq!(symbols, shown(other, &weights, &same_shifts));
        let changed = shown(other, &weights, &other_shifts);
        let differ: Vec<usize> = (0..degree).filter(|&n| symbols[n] != changed[n]).collect();
        assert_eq!(differ, [round % degree]);
        // With the rest of the record as it is, too.
        let only_shifts = [&others, &record[degree..]].concat();
        assert_eq!(shown(one, &weights, &only_shifts), changed);
    }
}

/// The same over records that checks wrote, with every k and edition on the same costs.
#[test]
fn one_check_shows_the_same_by_every_rule() {
    let mut generator = Generator::new(112);
    let mut differ = 0;
    for _ in 0..300 {
        let (sample, record) = written(&mut generator);
        let symbols = shown(sample.first, &sample.weights, &record);
        for first in firsts(sample.rule().field().p()) {
            let rule = Rule::new(first).expect("an accepted first byte");
            let mut other = vec![0; record::length(rule, sample.degree())];
            check(first, &sample.weights, &sample.costs, &mut other).expect("an accepted check");
            assert_eq!(shown(first, &sample.weights, &other), symbols);
            differ += usize::from(other != record);
        }
    }
    assert!(differ > 300, "{differ}");
}

/// "which symbol each column was urged towards": the one that satisfies the check with the decisions of the others, for
/// which nothing is asked.
#[test]
fn the_shown_symbol_satisfies_the_check_with_the_others_decisions() {
    let mut generator = Generator::new(113);
    for _ in 0..500 {
        let (sample, record) = written(&mut generator);
        let (field, weights) = (sample.rule().field(), &sample.weights);
        let messages = Messages::new(sample.rule(), weights, &sample.costs);
        let symbols = shown(sample.first, weights, &record);
        for (n, &symbol) in symbols.iter().enumerate() {
            let mut word: Vec<u8> = messages.decisions.iter().map(|z| z.symbol).collect();
            word[n] = symbol;
            let terms = weights.iter().zip(&word);
            assert_eq!(sum(terms.map(|(&weight, &x)| field.product(weight, x))), 0);
            assert_eq!(messages.sent[n][usize::from(symbol)], 0);
        }
    }
}

/// In any record of accepted form the shown symbol expands to cost 0.
#[test]
fn the_shown_symbol_expands_to_0() {
    let mut generator = Generator::new(114);
    for _ in 0..1_000 {
        let first = sample::first_byte(&mut generator, 2..=6, 2..=3);
        let field = Rule::new(first).expect("an accepted first byte").field();
        let degree = generator.between(2..=32);
        let weights = sample::weights(&mut generator, field.p(), degree);
        let record = sample::record(&mut generator, first, degree);
        let costs = expansion(first, &weights, &record);
        let columns = costs.chunks_exact(field.size());
        for (column, symbol) in columns.zip(shown(first, &weights, &record)) {
            assert_eq!(column[usize::from(symbol)], 0);
        }
    }
}

/// "the bench reader, which is expansion, still recovers every sent cost of a record that a check wrote"
#[test]
fn the_bench_recovers_every_sent_cost() {
    let mut generator = Generator::new(115);
    for _ in 0..500 {
        let (sample, record) = written(&mut generator);
        let messages = Messages::new(sample.rule(), &sample.weights, &sample.costs);
        let costs = expansion(sample.first, &sample.weights, &record);
        assert_eq!(costs, messages.sent.concat());
    }
}

/// The refusal of a display in a buffer of this length and arbitrary content, which has not changed. But for its buffer
/// a display refuses as expansion does.
fn refused(first: u8, weights: &[u8], record: &[u8], length: usize) -> u8 {
    let before = Generator::new(116).bytes(length);
    let mut out = before.clone();
    let answer = display(first, weights, record, &mut out);
    assert_eq!(out, before);
    let number = answer.expect_err("a refusal").number();
    if number != 2 {
        let expanded = expand(first, weights, record, &mut [0; 2_048]);
        assert_eq!(expanded.expect_err("a refusal").number(), number);
    }
    number
}

#[test]
fn the_first_byte_is_6_before_9() {
    let record = bytes("010203 0900FF020A FFFF00FF00 000101FF00");
    for first in [0x00, 0x01, 0x07, 0x11, 0x17, 0x42, 0xFF] {
        assert_eq!(refused(first, &[1, 2, 3], &record, 3), 6);
        assert_eq!(refused(first, &[0], &[], 0), 6);
    }
}

#[test]
fn the_degree_is_9_before_11() {
    for degree in [0, 1, 33, 256, 258] {
        let record = vec![0; degree + 15];
        assert_eq!(refused(2, &vec![1; degree], &record, 300), 9);
        assert_eq!(refused(2, &vec![0; degree], &record, 0), 9);
    }
}

#[test]
fn a_weight_is_11_before_16() {
    let record = bytes("010203 0900FF020A FFFF00FF00 000101FF00");
    for weight in [0, 4, 255] {
        assert_eq!(refused(2, &[1, 2, weight], &record, 3), 11);
        assert_eq!(refused(2, &[weight, 2, 3], &record[..17], 0), 11);
    }
}

/// A record is refused for a fault that the display would not show, too.
#[test]
fn the_record_is_16_before_2() {
    for record in [
        "",
        "010203",
        "010203 0900FF020A FFFF00FF00 000101FF",
        "010203 0900FF020A FFFF00FF00 000101FF00 00",
        "010403 0900FF020A FFFF00FF00 000101FF00",
        "010203 0900FF020A FFFF01FF00 000101FF00",
        "010203 09FF00020A FFFF00FF00 000101FF00",
        "010203 0902FF000A FFFF00FF00 000101FF00",
        "010203 0900FF030A FFFF00FF00 000101FF00",
        "010203 0900FF0209 FFFF00FF00 000101FF00",
    ] {
        for length in [0, 2, 3, 4] {
            assert_eq!(refused(2, &[1, 2, 3], &bytes(record), length), 16);
        }
    }
}

/// "the display's buffer is d bytes, refusal 2"
#[test]
fn a_short_buffer_is_2() {
    let mut generator = Generator::new(117);
    for degree in [2, 3, 32] {
        let record = sample::record(&mut generator, 2, degree);
        for length in 0..degree {
            assert_eq!(refused(2, &vec![1; degree], &record, length), 2);
        }
        assert_eq!(shown(2, &vec![1; degree], &record), record[..degree]);
    }
}
