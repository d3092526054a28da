//! Demand 1 on random inputs, accepted and damaged, with buffers that may be too short: "it stays
//! inside the buffers lent to it"; "a refusal reports zero iterations and changes no lent byte".
//! Document 01, "Layered machine": "Elements past the used part, and in other calls past the bytes
//! written, keep their old content."

use std::collections::BTreeSet;

use reference_decoder::line::hexadecimal;
use reference_decoder::sample::{self, Buffers, Generator, Size, Style};
use reference_decoder::{check, code_line, encode, expand, line, record, Refusal};

/// Calls twice with buffers of different content and the same length, now and then too short, and
/// gives the refusal's number or 0. Whatever the buffers held: the answers are equal, the bytes
/// written are equal, and the others keep their content.
fn call(
    generator: &mut Generator,
    needed: usize,
    entry_point: impl Fn(&mut [u8]) -> Result<usize, Refusal>,
) -> u8 {
    let length = match generator.below(4) {
        0 => generator.below(needed + 1),
        1 => needed,
        _ => needed + generator.below(20),
    };
    let before = [generator.bytes(length), generator.bytes(length)];
    let mut buffers = before.clone();
    let [first, second] = &mut buffers;
    let answer = entry_point(first);
    assert_eq!(entry_point(second), answer);
    let written = answer.unwrap_or(0);
    assert_eq!(buffers[0][..written], buffers[1][..written]);
    for (buffer, before) in buffers.iter().zip(&before) {
        assert_eq!(buffer[written..], before[written..]);
    }
    answer.err().map_or(0, Refusal::number)
}

#[test]
fn check_expand_and_line() {
    let mut generator = Generator::new(80);
    let (mut of_check, mut of_expand, mut of_line) =
        (BTreeSet::new(), BTreeSet::new(), BTreeSet::new());
    for _ in 0..2_000 {
        let style = generator.one_of(&Style::ALL);
        let first = sample::first_byte(&mut generator, 2..=4, 2..=3);
        let mut sample = sample::check(&mut generator, first, 2..=6, style);
        let (rule, degree) = (sample.rule(), sample.degree());
        let needed = [record::length(rule, degree), degree * sample.q()];
        let mut record = sample::record(&mut generator, first, degree);
        let mut text = hexadecimal(&record);
        if generator.once_in(2) {
            sample = sample::damaged_check(&mut generator, &sample);
        }
        if generator.once_in(2) {
            record = sample::damaged_record(&mut generator, rule, degree, &record);
            text = sample::damaged_text(&mut generator, &text);
        }
        let (first, weights) = (sample.first, &sample.weights);
        of_check.insert(call(&mut generator, needed[0], |buffer| {
            check(first, weights, &sample.costs, buffer)
        }));
        of_expand.insert(call(&mut generator, needed[1], |buffer| {
            expand(first, weights, &record, buffer)
        }));
        of_line.insert(call(&mut generator, text.len() / 2, |buffer| {
            line(&text, buffer)
        }));
    }
    assert_eq!(of_check, BTreeSet::from([0, 4, 6, 9, 11, 12, 13]));
    assert_eq!(of_expand, BTreeSet::from([0, 2, 6, 9, 11, 16]));
    assert_eq!(of_line, BTreeSet::from([0, 2, 14, 15]));
}

#[test]
fn encoding() {
    let mut generator = Generator::new(82);
    let mut numbers = BTreeSet::new();
    for _ in 0..3_000 {
        let code = sample::encodable_code(&mut generator, &Size::SMALL);
        let mut message = sample::message(&mut generator, &code);
        let mut line = code.line();
        if generator.once_in(3) {
            line = sample::damaged_code(&mut generator, &line);
        }
        if generator.once_in(3) {
            message = sample::damaged_message(&mut generator, code.field().size(), &message);
        }
        numbers.insert(call(&mut generator, code.n, |buffer| {
            encode(&line, &message, buffer)
        }));
    }
    assert_eq!(
        numbers,
        BTreeSet::from([0, 2, 5, 6, 7, 8, 9, 10, 11, 17, 18])
    );
}

/// What a decoding fills: all used parts, but for the store when no iteration was made.
fn filled(line: &[u8], iterations: u8) -> [usize; 4] {
    let code = code_line(line).expect("an accepted code line");
    let [symbols, costs, store, margins] = code.lengths();
    match iterations {
        0 => [symbols, costs, 0, margins],
        _ => [symbols, costs, store, margins],
    }
}

#[test]
fn decoding() {
    let mut generator = Generator::new(81);
    let mut numbers = BTreeSet::new();
    for _ in 0..3_000 {
        let sample = sample::code(&mut generator, &Size::SMALL);
        let code = code_line(&sample.line).unwrap();
        let style = generator.one_of(&Style::ALL);
        let wrong = generator.below(4);
        let mut frame = sample::noisy_frame(&mut generator, &code, &sample.word, wrong, style);
        let mut line = sample.line;
        if generator.once_in(3) {
            line = sample::damaged_code(&mut generator, &line);
        }
        if generator.once_in(3) {
            frame = sample::damaged_frame(&mut generator, code.field().size(), &frame);
        }
        let lengths = code.lengths().map(|used| match generator.below(12) {
            0 => generator.below(used),
            extra => used + extra,
        });
        let before = [0, 1].map(|_| Buffers::arbitrary(&mut generator, lengths));
        let mut after = before.clone();
        let answers = after.each_mut().map(|lent| lent.decode(&line, &frame));
        assert_eq!(answers[0], answers[1]);
        // A damaged code line can be accepted with other numbers, so what is filled is asked again.
        let filled = match answers[0] {
            Ok(outcome) => filled(&line, outcome.iterations()),
            Err(_) => [0; 4],
        };
        numbers.insert(answers[0].err().map_or(0, Refusal::number));
        let [[one, one_rest], [other, other_rest]] = after.map(|buffers| buffers.split(filled));
        let rests = before.map(|buffers| buffers.split(filled)[1].clone());
        assert_eq!(one, other);
        assert_eq!([one_rest, other_rest], rests);
    }
    let expected = (2..=13).chain([0, 19]);
    assert_eq!(numbers, expected.collect());
}
