//! Document 02, §13: "It refuses as decoding does." Document 01: "A refusal returns its number with t = 0; no lent buffer
//! changes."

use std::collections::BTreeSet;

use reference_decoder::sample::{self, bytes, Buffers, Generator, Size, Style};
use reference_decoder::{code_line, Refusal, Stopped};

/// p = 2, N = 3, M = 1, g = 16, I = 1: one check on all columns.
const CODE: &str = "020003011001 03 000001 000101 000201";
const FRAME: &str = "05000907 00040803 0006020A";
const LONG_ENOUGH: [usize; 4] = [3, 12, 18, 3];

/// The answer in buffers of arbitrary content. A refusal has not changed them, and the ordinary call answers with the
/// same one.
fn answer(code: &[u8], frame: &[u8], lengths: [usize; 4]) -> Result<Stopped, u8> {
    let before = Buffers::arbitrary(&mut Generator::new(130), lengths);
    let mut after = before.clone();
    let answer = after.decode_early(code, frame);
    let ordinary = before.clone().decode(code, frame);
    assert_eq!(answer.err(), ordinary.err());
    if answer.is_err() {
        assert_eq!(after, before);
    }
    answer.map_err(Refusal::number)
}

/// The refusal of document 01's code with a byte replaced, where frame and buffers are wrong too.
fn with(place: usize, byte: u8) -> Result<Stopped, u8> {
    let mut line = bytes(CODE);
    line[place] = byte;
    answer(&line, &[], [0; 4])
}

#[test]
fn each_refusal_of_the_code_line_comes_before_12() {
    for length in 0..16 {
        assert_eq!(answer(&bytes(CODE)[..length], &[], [0; 4]), Err(5));
    }
    assert_eq!(
        answer(&[bytes(CODE), vec![0]].concat(), &[], [0; 4]),
        Err(5)
    );
    for first in [0x00, 0x07, 0x11, 0x17, 0x42, 0xFF] {
        assert_eq!(with(0, first), Err(6));
    }
    assert_eq!([with(2, 0), with(3, 0), with(3, 129)], [Err(7); 3]);
    assert_eq!([with(4, 0), with(4, 17), with(5, 0)], [Err(8); 3]);
    assert_eq!([with(6, 1), with(6, 33)], [Err(9); 2]);
    assert_eq!([with(8, 3), with(11, 0), with(14, 1)], [Err(10); 3]);
    assert_eq!([with(9, 0), with(12, 4), with(15, 255)], [Err(11); 3]);
    assert_eq!(with(15, 1), Err(12));
}

/// Neighbours of the order within the code line.
#[test]
fn the_code_line_is_refused_front_to_back() {
    for (line, number) in [
        ("FF0000", 5),
        ("FF0000000000", 6),
        ("020000010001", 7),
        ("020003010001 01", 8),
        ("020003011001 01", 9),
        ("020003011001 03 0009", 5),
        ("020003011001 03 000300 000101 000201", 10),
        ("020003011001 03 000000 000001 000201", 11),
        ("020003011001 03 000001 000101 000200 00", 11),
        ("020003011001 03 000001 000101 000201 00", 5),
    ] {
        assert_eq!(answer(&bytes(line), &[], [0; 4]), Err(number), "{line}");
    }
}

#[test]
fn the_frame_then_2_3_4_19() {
    let code = bytes(CODE);
    let number = |frame: &str, lengths| answer(&code, &bytes(frame), lengths);
    let one_less = "05010907 01040803 010602";
    let without_zero = "05000907 01040803 0006020A";
    for (lengths, expected) in [
        (LONG_ENOUGH, Ok(Stopped::Found(1))),
        ([2, 11, 17, 2], Err(2)),
        ([2, 12, 18, 3], Err(2)),
        ([3, 11, 17, 2], Err(3)),
        ([3, 11, 18, 3], Err(3)),
        ([3, 12, 17, 2], Err(4)),
        ([3, 12, 17, 3], Err(4)),
        ([3, 12, 18, 2], Err(19)),
        ([9, 99, 99, 0], Err(19)),
    ] {
        assert_eq!(number("", lengths), Err(12));
        assert_eq!(number(one_less, lengths), Err(12));
        assert_eq!(number(without_zero, lengths), Err(13));
        assert_eq!(number(FRAME, lengths), expected);
    }
}

/// A decoding that would stop at the start, or inside the first iteration, needs the whole store all the same.
#[test]
fn the_whole_store_is_needed_wherever_it_stops() {
    let at_once = bytes("00050907 00040803 0006020A");
    assert_eq!(
        answer(&bytes(CODE), &at_once, LONG_ENOUGH),
        Ok(Stopped::Found(0))
    );
    assert_eq!(answer(&bytes(CODE), &at_once, [3, 12, 17, 2]), Err(4));
    assert_eq!(answer(&bytes(CODE), &at_once, [3, 12, 18, 2]), Err(19));
    let code = bytes("020003021001 03 000001 000101 000201 03 000001 000101 000201");
    let length = |store| answer(&code, &bytes(FRAME), [3, 12, store, 3]);
    assert_eq!([length(35), length(18)], [Err(4); 2]);
    assert_eq!(length(36), Ok(Stopped::Found(1)));
}

/// On inputs of which each part may be damaged, several at once too.
#[test]
fn it_refuses_what_decoding_refuses() {
    let mut generator = Generator::new(131);
    let mut numbers = BTreeSet::new();
    for _ in 0..4_000 {
        let sample = sample::code(&mut generator, &Size::SMALL);
        let code = code_line(&sample.line).expect("an accepted code line");
        let style = generator.one_of(&Style::ALL);
        let wrong = generator.below(4);
        let mut frame = sample::noisy_frame(&mut generator, &code, &sample.word, wrong, style);
        let mut line = sample.line;
        if generator.once_in(3) {
            line = sample::damaged_code(&mut generator, &line);
        }
        if generator.once_in(3) {
            frame = sample::damaged_frame(&mut generator, code.field().size(), &frame);
        }
        let lengths = code.lengths().map(|used| match generator.below(8) {
            0 => generator.below(used),
            extra => used + extra,
        });
        numbers.insert(answer(&line, &frame, lengths).err().unwrap_or(0));
    }
    let expected = (2..=13).chain([0, 19]);
    assert_eq!(numbers, expected.collect());
}
