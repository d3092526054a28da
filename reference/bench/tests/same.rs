//! The same algorithm in Rust against the reference decoder: the benchmark's ratios are worth
//! something only if it is right.

use std::collections::BTreeSet;

use bench::same;
use reference_decoder::sample::{self, Buffers, Generator, Miss, Size, Style};
use reference_decoder::{code_line, encode, expand, Outcome, Refusal, Rule, Stopped};

/// A refusal by its number.
fn numbered<T>(answer: Result<T, Refusal>) -> Result<T, u8> {
    answer.map_err(Refusal::number)
}

#[test]
fn expansions() {
    let mut generator = Generator::new(1);
    for round in 0..3_000 {
        let degree = if round % 8 < 2 { 2..=2 } else { 2..=32 };
        let first = sample::first_byte(&mut generator, 2..=6, 2..=3);
        let (rule, degree) = (Rule::new(first).unwrap(), generator.between(degree));
        let mut record = sample::record(&mut generator, first, degree);
        if round % 4 == 1 {
            record = sample::damaged_record(&mut generator, rule, degree, &record);
        }
        let weights = sample::weights(&mut generator, rule.field().p(), degree);
        let room = degree * rule.field().size() + generator.below(3) - 1;
        let mut expected = generator.bytes(room);
        let mut found = expected.clone();
        assert_eq!(
            same::expand(first, &weights, &record, &mut found),
            numbered(expand(first, &weights, &record, &mut expected))
        );
        assert_eq!(found, expected);
    }
}

/// A code line, a frame and buffers to decode it in, in some rounds not accepted.
fn decoding(generator: &mut Generator, round: usize) -> (Vec<u8>, Vec<u8>, Buffers) {
    let size = [Size::SMALL, Size::MEDIUM][round % 2].clone();
    let sample = sample::code(generator, &size);
    let code = code_line(&sample.line).unwrap();
    let style = generator.one_of(&Style::ALL);
    let wrong = generator.below(code.n);
    let mut frame = sample::noisy_frame(generator, &code, &sample.word, wrong, style);
    let mut line = sample.line;
    match round % 8 {
        0 => line = sample::damaged_code(generator, &line),
        1 => frame = sample::damaged_frame(generator, code.field().size(), &frame),
        _ => (),
    }
    // About one buffer in nine is an element short.
    let lengths = code.lengths().map(|length| length + generator.below(9) - 1);
    (line, frame, Buffers::arbitrary(generator, lengths))
}

/// The refusals of decoding that are met.
const REFUSED: [Option<u8>; 6] = [Some(2), Some(3), Some(4), Some(12), Some(13), Some(19)];

#[test]
fn decodings() {
    let mut generator = Generator::new(2);
    let mut numbers = BTreeSet::new();
    for round in 0..600 {
        let (line, frame, mut expected) = decoding(&mut generator, round);
        let mut found = expected.clone();
        let (symbols, costs) = (&mut found.symbols, &mut found.costs);
        let (store, margins) = (&mut found.store, &mut found.margins);
        let answer = same::decode(&line, &frame, symbols, costs, store, margins);
        let pair = |outcome: Outcome| (outcome.status(), outcome.iterations());
        assert_eq!(answer, numbered(expected.decode(&line, &frame)).map(pair));
        assert_eq!(found, expected);
        numbers.insert(answer.err());
    }
    assert!(REFUSED.iter().all(|number| numbers.contains(number)));
}

#[test]
fn decodings_that_stop_inside_an_iteration() {
    let mut generator = Generator::new(4);
    let (mut numbers, mut inside) = (BTreeSet::new(), 0);
    for round in 0..2_000 {
        let (line, frame, mut expected) = decoding(&mut generator, round);
        let mut found = expected.clone();
        let (symbols, costs) = (&mut found.symbols, &mut found.costs);
        let (store, margins) = (&mut found.store, &mut found.margins);
        let answer = same::decode_early(&line, &frame, symbols, costs, store, margins);
        let pair = |stopped: Stopped| (stopped.status(), stopped.updates());
        let stopped = numbered(expected.decode_early(&line, &frame)).map(pair);
        assert_eq!(answer, stopped);
        assert_eq!(found, expected);
        numbers.insert(answer.err());
        let is_inside = |(_, updates)| updates % u16::from(line[3]) != 0;
        inside += usize::from(answer.is_ok_and(is_inside));
    }
    assert!(REFUSED.iter().all(|number| numbers.contains(number)));
    assert!(inside > 50);
}

#[test]
fn encodings() {
    let mut generator = Generator::new(3);
    let mut numbers = BTreeSet::new();
    for round in 0..4_000 {
        let size = match round % 64 {
            0 => Size::FULL,
            1..20 => Size::MEDIUM,
            _ => Size::SMALL,
        };
        let mut code = sample::encodable_code(&mut generator, &size);
        let mut message = sample::message(&mut generator, &code);
        let room = code.n + generator.below(9) - 1;
        if round % 4 == 0 {
            let miss = generator.one_of(&Miss::ALL);
            code = sample::near_miss(&mut generator, &code, miss).unwrap_or(code);
        }
        let mut line = code.line();
        if round % 8 == 1 {
            line = sample::damaged_code(&mut generator, &line);
        }
        if round % 8 == 2 {
            message = sample::damaged_message(&mut generator, code.field().size(), &message);
        }
        let mut expected = generator.bytes(room);
        let mut found = expected.clone();
        let answer = numbered(encode(&line, &message, &mut expected));
        assert_eq!(same::encode(&line, &message, &mut found), answer);
        assert_eq!(found, expected);
        numbers.insert(answer.err());
    }
    let refused = [2, 5, 6, 7, 8, 9, 10, 11, 17, 18].map(Some);
    assert!(refused
        .iter()
        .chain(&[None])
        .all(|number| numbers.contains(number)));
}
