//! `combine` on an example worked by hand, on each of its refusals and on inputs that no caller means. The comparison
//! with the reference decoder is in the package `compare`.

use petsivola::{combine, decode, lengths, Outcome, Refusal};

/// p = 2, N = 3, M = 1, g = 16, I = 1: one check on all columns with weights 1.
const CODE: [u8; 16] = [2, 0, 3, 1, 16, 1, 3, 0, 0, 1, 0, 1, 1, 0, 2, 1];
const FIRST: [u8; 12] = [5, 0, 9, 7, 0, 4, 8, 3, 0, 6, 2, 10];
const SECOND: [u8; 12] = [0, 9, 2, 0, 7, 3, 255, 0, 10, 6, 0, 4];
/// The sums 5 9 11 7, 7 7 263 3 and 10 12 2 14, each less the least of its column and at most 255.
const BOTH: [u8; 12] = [0, 4, 6, 2, 4, 4, 255, 0, 8, 10, 0, 12];

/// The answer, and that a refused call has changed nothing.
fn answer(code: &[u8], first: &[u8], second: &[u8], length: usize) -> Result<usize, Refusal> {
    let mut out = vec![0xA5; length];
    let answer = combine(code, first, second, &mut out);
    if answer.is_err() {
        assert_eq!(out, vec![0xA5; length]);
    }
    answer
}

/// The frame that two give.
fn combined(first: &[u8; 12], second: &[u8; 12]) -> [u8; 12] {
    let mut out = [0xA5; 12];
    assert_eq!(combine(&CODE, first, second, &mut out), Ok(12));
    out
}

#[test]
fn combine_writes_the_frame_and_nothing_else() {
    let mut out = [0xA5; 15];
    assert_eq!(combine(&CODE, &FIRST, &SECOND, &mut out), Ok(12));
    assert_eq!((&out[..12], &out[12..]), (&BOTH[..], &[0xA5; 3][..]));
    assert_eq!(lengths::frame(CODE[0], 3), Some(12));
}

#[test]
fn either_order_a_frame_of_zeros_and_the_same_frame_twice() {
    assert_eq!(combined(&SECOND, &FIRST), BOTH);
    for frame in [FIRST, SECOND, BOTH] {
        assert_eq!(combined(&frame, &[0; 12]), frame);
        assert_eq!(combined(&[0; 12], &frame), frame);
        let doubled = frame.map(|cost| cost.saturating_mul(2));
        assert_eq!(combined(&frame, &frame), doubled);
    }
}

/// Sums above 255, and the cap after the least was subtracted.
#[test]
fn no_sum_is_taken_in_a_byte() {
    let mut first = [0; 12];
    let mut second = [0; 12];
    first[..8].copy_from_slice(&[0, 200, 255, 100, 0, 40, 195, 196]);
    second[..8].copy_from_slice(&[255, 100, 0, 156, 60, 0, 100, 100]);
    let both = combined(&first, &second);
    assert_eq!(both[..8], [0, 45, 0, 1, 20, 0, 255, 255]);
}

#[test]
fn what_is_combined_is_decoded() {
    let (mut symbols, mut costs, mut store) = ([0; 3], [0; 12], [0; 18]);
    let (mut margins, costs) = ([0; 3], &mut costs);
    let outcome = decode(&CODE, &BOTH, &mut symbols, costs, &mut store, &mut margins);
    assert_eq!(outcome, Ok(Outcome::Found(1)));
}

#[test]
fn the_code_lines_refusals_come_first() {
    let with = |place: usize, byte: u8| {
        let mut code = CODE;
        code[place] = byte;
        answer(&code, &[], &[], 0)
    };
    assert_eq!(with(0, 7), Err(Refusal::FieldSize));
    assert_eq!(with(3, 0), Err(Refusal::ColumnsOrChecks));
    assert_eq!(with(4, 17), Err(Refusal::ScaleOrLimit));
    assert_eq!(with(6, 1), Err(Refusal::Degree));
    assert_eq!(with(14, 3), Err(Refusal::Column));
    assert_eq!(with(15, 4), Err(Refusal::Weight));
    assert_eq!(answer(&CODE[..15], &[], &[], 0), Err(Refusal::CodeBytes));
    assert_eq!(with(15, 1), Err(Refusal::CostCount));
}

#[test]
fn the_first_frame_then_the_second_then_the_buffer() {
    let mut no_zero = FIRST;
    no_zero[1] = 1;
    for second in [&SECOND[..], &SECOND[..11], &no_zero, &[]] {
        for length in [0, 11, 12] {
            let answer = |first: &[u8]| answer(&CODE, first, second, length);
            assert_eq!(answer(&FIRST[..11]), Err(Refusal::CostCount));
            assert_eq!(answer(&[0; 13]), Err(Refusal::CostCount));
            assert_eq!(answer(&no_zero), Err(Refusal::NoZeroCost));
        }
    }
    for second in [&SECOND[..11], &[0; 13], &no_zero, &[]] {
        for length in [0, 11, 12] {
            let refused = answer(&CODE, &FIRST, second, length);
            assert_eq!(refused, Err(Refusal::SecondFrame));
        }
    }
    for length in 0..12 {
        let refused = answer(&CODE, &FIRST, &SECOND, length);
        assert_eq!(refused, Err(Refusal::ShortBuffer));
    }
    assert_eq!(answer(&CODE, &FIRST, &SECOND, 12), Ok(12));
}

#[test]
fn empty_slices_are_answered() {
    assert_eq!(answer(&[], &[], &[], 0), Err(Refusal::CodeBytes));
    assert_eq!(answer(&CODE, &[], &[], 0), Err(Refusal::CostCount));
    assert_eq!(answer(&CODE, &FIRST, &[], 0), Err(Refusal::SecondFrame));
}
