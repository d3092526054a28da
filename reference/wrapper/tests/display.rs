//! `display` on examples worked by hand, beside `expand`, on each of its refusals and on inputs that no caller means. The
//! comparison with the reference decoder is in the package `compare`.

use petsivola::{check, display, expand, product, Refusal};

/// Columns 1 0 5 7, 4 0 8 3 and 6 0 2 9 decide 1 each.
const COSTS: [u8; 12] = [1, 0, 5, 7, 4, 0, 8, 3, 6, 0, 2, 9];
const WEIGHTS: [u8; 3] = [1, 2, 3];
/// Any record of accepted form; the shifts are 1, 3 and 2.
const RECORD: [u8; 18] = [
    1, 3, 2, 9, 0, 255, 2, 10, 255, 255, 0, 255, 0, 0, 1, 1, 255, 0,
];

/// What is shown of a record.
fn shown(first: u8, record: &[u8]) -> [u8; 3] {
    let mut out = [0xA5; 3];
    assert_eq!(display(first, &WEIGHTS, record, &mut out), Ok(3));
    out
}

/// The answer, and that a refused call has changed nothing.
fn answer(first: u8, weights: &[u8], record: &[u8], length: usize) -> Result<usize, Refusal> {
    let mut out = vec![0xA5; length];
    let answer = display(first, weights, record, &mut out);
    if answer.is_err() {
        assert_eq!(out, vec![0xA5; length]);
    }
    answer
}

/// 1 / 1 = 1, 3 / 2 = 3 times 3 = 2, 2 / 3 = 2 times 2 = 3.
#[test]
fn display_writes_the_symbols_and_nothing_else() {
    let mut out = [0xA5; 5];
    assert_eq!(display(2, &WEIGHTS, &RECORD, &mut out), Ok(3));
    assert_eq!(out, [1, 2, 3, 0xA5, 0xA5]);
}

/// Document 01's bench table: weights 1, 2, 3 and decisions all 1 give the shifts 1, 2, 3.
#[test]
fn a_check_in_both_views_by_every_rule() {
    for first in [0x02, 0x12, 0x22, 0x32] {
        let mut record = [0; 24];
        let length = check(first, &WEIGHTS, &COSTS, &mut record).expect("an accepted check");
        assert_eq!(record[..3], [1, 2, 3]);
        let mut costs = [0xA5; 12];
        assert_eq!(
            expand(first, &WEIGHTS, &record[..length], &mut costs),
            Ok(12)
        );
        let symbols = shown(first, &record[..length]);
        assert_eq!(symbols, [1, 1, 1]);
        for (column, symbol) in costs.chunks_exact(4).zip(symbols) {
            assert_eq!(column[usize::from(symbol)], 0);
        }
    }
}

/// Other costs and pairs change nothing, and every other shift does.
#[test]
fn the_shifts_alone_are_shown() {
    let mut other = RECORD;
    other[3..].copy_from_slice(&[0, 255, 0, 255, 0, 8, 1, 9, 255, 0, 254, 2, 255, 255, 0]);
    assert_eq!(shown(2, &other), shown(2, &RECORD));
    for shift in 0..4 {
        other[1] = shift;
        let symbols = shown(2, &other);
        assert_eq!((symbols[0], symbols[2]), (1, 3));
        assert_eq!(product(2, WEIGHTS[1], symbols[1]), Ok(shift));
    }
}

#[test]
fn the_first_byte_the_degree_and_the_weights() {
    for record in [&RECORD[..], &[]] {
        for length in [0, 3] {
            let answer = |first, weights: &[u8]| answer(first, weights, record, length);
            assert_eq!(answer(7, &[0]), Err(Refusal::FieldSize));
            assert_eq!(answer(0x42, &WEIGHTS), Err(Refusal::FieldSize));
            assert_eq!(answer(2, &[0]), Err(Refusal::Degree));
            assert_eq!(answer(2, &[0; 33]), Err(Refusal::Degree));
            assert_eq!(answer(2, &[1, 0, 3]), Err(Refusal::Weight));
            assert_eq!(answer(2, &[1, 2, 4]), Err(Refusal::Weight));
        }
    }
}

#[test]
fn the_record_then_the_buffer() {
    let with = |place: usize, byte: u8| {
        let mut record = RECORD;
        record[place] = byte;
        record
    };
    let wrong = [with(2, 4), with(4, 3), with(5, 9), with(10, 1), with(17, 1)];
    for length in 0..5 {
        for record in &wrong {
            let refused = answer(2, &WEIGHTS, record, length);
            assert_eq!(refused, Err(Refusal::Record));
        }
        // The length for k = 3, and a byte less.
        for first in [0x22, 0x32] {
            let refused = answer(first, &WEIGHTS, &RECORD, length);
            assert_eq!(refused, Err(Refusal::Record));
        }
        let refused = answer(2, &WEIGHTS, &RECORD[..17], length);
        assert_eq!(refused, Err(Refusal::Record));
    }
    for length in 0..3 {
        let refused = answer(2, &WEIGHTS, &RECORD, length);
        assert_eq!(refused, Err(Refusal::ShortBuffer));
    }
    assert_eq!(answer(2, &WEIGHTS, &RECORD, 3), Ok(3));
}

#[test]
fn empty_slices_are_answered() {
    assert_eq!(answer(2, &[], &[], 0), Err(Refusal::Degree));
    assert_eq!(answer(2, &WEIGHTS, &[], 0), Err(Refusal::Record));
    assert_eq!(answer(2, &WEIGHTS, &RECORD, 0), Err(Refusal::ShortBuffer));
}
