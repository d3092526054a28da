//! `code_line` on the documents' own values, on each of its refusals and on inputs that no caller means. The comparison
//! with the reference decoder is in the package `compare`.

use petsivola::code_line::{summary, Summary};
use petsivola::{code_line, decode, lengths, CodeLine, Edition, Outcome, Refusal};

/// p = 2, N = 3, M = 1, g = 16, I = 1: one check on all columns with weights 1.
const CODE: [u8; 16] = [2, 0, 3, 1, 16, 1, 3, 0, 0, 1, 0, 1, 1, 0, 2, 1];

/// Document 01's code line with bytes replaced from a place on.
fn with(place: usize, replacement: &[u8]) -> Vec<u8> {
    let mut line = CODE.to_vec();
    line[place..place + replacement.len()].copy_from_slice(replacement);
    line
}

/// The refusal of a code line, which has 0 in all other fields.
fn refused(line: &[u8]) -> u16 {
    let refusal = code_line(line).expect_err("a refusal").number();
    let expected = Summary {
        number: u8::try_from(refusal).expect("a number of the documents"),
        ..Summary::default()
    };
    assert_eq!(summary(line), expected);
    refusal
}

/// A code line with N = 256, M checks of one degree on the first columns, weights 1, g = 7 and I = 255.
fn wide(first: u8, checks: u8, degree: u8) -> Vec<u8> {
    let mut line = vec![first, 1, 0, checks, 7, 255];
    for _ in 0..checks {
        line.push(degree);
        line.extend((0..degree).flat_map(|column| [0, column, 1]));
    }
    line
}

#[test]
fn the_numbers_and_lengths_of_the_example() {
    let code = code_line(&CODE).expect("an accepted code line");
    assert_eq!((code.first(), code.rule().edition()), (2, Edition::Sum));
    assert_eq!((code.columns(), code.checks()), (3, 1));
    assert_eq!((code.scale(), code.limit()), (16, 1));
    assert_eq!((code.store_length(), code.frame_length()), (18, 12));
    assert_eq!(code.message_length(), Some(2));
    let expected = Summary {
        number: 0,
        first: 2,
        columns: 3,
        checks: 1,
        scale: 16,
        limit: 1,
        store: 18,
    };
    assert_eq!(summary(&CODE), expected);
}

/// 128 checks of degree 8, and 32 of degree 32: "All checks together have at most 1,024 edges."
#[test]
fn the_longest_line_the_most_edges_and_the_longest_store() {
    for (first, stores) in [
        (0x06, [41_344, 11_104]),
        (0x16, [41_344, 11_104]),
        (0x26, [57_472, 15_136]),
        (0x36, [57_472, 15_136]),
    ] {
        for ((checks, degree), store) in [(128, 8), (32, 32)].into_iter().zip(stores) {
            let line = wide(first, checks, degree);
            let checks = usize::from(checks);
            assert_eq!(line.len(), lengths::code(checks, 1_024));
            let code = code_line(&line).expect("an accepted code line");
            assert_eq!((code.first(), code.scale(), code.limit()), (first, 7, 255));
            assert_eq!((code.columns(), code.checks()), (256, checks));
            assert_eq!(code.store_length(), store);
            assert_eq!(lengths::store(first, checks, 1_024), Some(store));
            assert_eq!(code.frame_length(), lengths::MOST_FRAME);
            assert_eq!(code.message_length(), Some(256 - checks));
        }
    }
    assert_eq!(wide(6, 128, 8).len(), lengths::MOST_CODE);
    assert_eq!(lengths::MOST_STORE, 57_472);
}

/// Checks on two columns with N = 2, fewer columns than checks: no message has a length.
#[test]
fn the_least_line_and_no_message() {
    let check = [2, 0, 0, 1, 0, 1, 3];
    let line = |checks: u8| {
        let checks_of_line = check.repeat(usize::from(checks));
        [&[0x12, 0, 2, checks, 1, 1], &checks_of_line[..]].concat()
    };
    let message_length = |checks: u8| code_line(&line(checks)).map(|code| code.message_length());
    assert_eq!(line(1).len(), lengths::code(1, 2));
    assert_eq!(message_length(1), Ok(Some(1)));
    assert_eq!(message_length(2), Ok(None));
    assert_eq!(message_length(3), Ok(None));
    let store_length = code_line(&line(3)).map(|code| code.store_length());
    assert_eq!(store_length, Ok(3 * 17));
}

#[test]
fn each_refusal_alone_and_with_a_later_one() {
    for length in 0..16 {
        assert_eq!(refused(&CODE[..length]), 5);
        // 5 before 6 where there are under six bytes, else after it.
        let first_byte_too = &with(0, &[7])[..length];
        assert_eq!(refused(first_byte_too), if length < 6 { 5 } else { 6 });
    }
    for first in [0, 1, 7, 0x11, 0x17, 0x21, 0x37, 0x42, 0xFF] {
        assert_eq!(refused(&with(0, &[first])), 6);
        assert_eq!(refused(&with(0, &[first, 0, 0])), 6);
    }
    for numbers in [[0, 0, 1], [1, 1, 1], [0, 3, 0], [0, 3, 129]] {
        assert_eq!(refused(&with(1, &numbers)), 7);
        assert_eq!(refused(&[&with(1, &numbers)[..4], &[0, 0]].concat()), 7);
    }
    for numbers in [[0, 1], [17, 1], [16, 0]] {
        assert_eq!(refused(&with(4, &numbers)), 8);
        assert_eq!(refused(&with(4, &numbers)[..6]), 8);
    }
    for degree in [0, 1, 33, 255] {
        assert_eq!(refused(&with(6, &[degree])), 9);
        assert_eq!(refused(&with(6, &[degree])[..7]), 9);
    }
    for (place, column) in [(7, [0, 3]), (10, [0, 0]), (10, [1, 0]), (13, [0, 1])] {
        assert_eq!(refused(&with(place, &column)), 10);
        let weight_too = with(place, &[column[0], column[1], 0]);
        assert_eq!(refused(&weight_too), 10);
    }
    for weight in [0, 4, 255] {
        assert_eq!(refused(&with(9, &[weight])), 11);
        assert_eq!(refused(&with(9, &[weight, 0, 0])), 11);
        assert_eq!(refused(&[&with(15, &[weight])[..], &[0]].concat()), 11);
    }
    assert_eq!(refused(&[&CODE[..], &[0]].concat()), 5);
    assert_eq!(refused(&with(3, &[2])), 5);
}

/// "9, degree out of range, or the edge total passes 1,024", before 5 for the check's edges.
#[test]
fn an_edge_total_above_1024() {
    let mut line = wide(6, 128, 8);
    line[6 + 127 * 25] = 9;
    assert_eq!(refused(&line), 9);
    line.extend([0, 8, 1]);
    assert_eq!(refused(&line), 9);
    line[6 + 126 * 25] = 7;
    line.drain(6 + 126 * 25 + 22..6 + 127 * 25);
    let store_length = code_line(&line).map(|code| code.store_length());
    assert_eq!(store_length, Ok(41_344));
    line.push(0);
    assert_eq!(refused(&line), 5);
}

/// A decoding in slices of these lengths is accepted, and with one element less it is not.
#[test]
fn the_lengths_are_what_decode_needs() {
    for first in [0x02, 0x12, 0x22, 0x32] {
        let line = with(0, &[first]);
        let code = code_line(&line).expect("an accepted code line");
        let lengths = [
            code.columns(),
            code.frame_length(),
            code.store_length(),
            code.columns(),
        ];
        let answer = |lengths: [usize; 4]| decoded(&line, &code, lengths);
        assert_eq!(answer(lengths), Ok(Outcome::Found(0)));
        for (place, number) in [2, 3, 4, 19].into_iter().enumerate() {
            let mut short = lengths;
            short[place] -= 1;
            assert_eq!(answer(short), Err(Refusal::from(number)));
        }
    }
}

/// Decodes a frame of zeros, in which every check is satisfied.
fn decoded(line: &[u8], code: &CodeLine, lengths: [usize; 4]) -> Result<Outcome, Refusal> {
    let frame = vec![0; code.frame_length()];
    let [symbols, costs, store, margins] = lengths;
    decode(
        line,
        &frame,
        &mut vec![0; symbols],
        &mut vec![0; costs],
        &mut vec![0; store],
        &mut vec![0; margins],
    )
}

#[test]
fn an_empty_slice_is_answered() {
    assert_eq!(refused(&[]), 5);
}
