//! Document 01, "Who causes which refusal": the code line and decode. Each refusal is met on its
//! own and, for the order, together with the one after it. A refused decoding changes no lent
//! element.

use reference_decoder::code_line;
use reference_decoder::sample::{bytes, Buffers, Generator};

const CODE: &str = "020003011001 03 000001 000101 000201";
const FRAME: &str = "05000907 00040803 0006020A";

/// The refusal of a code line, which a decoding answers too.
fn refused_code(line: &[u8]) -> u8 {
    let number = code_line(line).expect_err("a refusal").number();
    assert_eq!(refused_decoding(line, &bytes(FRAME), [0; 4]), number);
    let long_enough = [300, 20_000, 50_000, 300];
    assert_eq!(refused_decoding(line, &[], long_enough), number);
    number
}

/// The refusal of a decoding in buffers of arbitrary content, which has not changed. The lengths
/// are those of the symbol buffer, the cost buffer, the store and the margin buffer.
fn refused_decoding(code: &[u8], frame: &[u8], lengths: [usize; 4]) -> u8 {
    let before = Buffers::arbitrary(&mut Generator::new(70), lengths);
    let mut buffers = before.clone();
    let outcome = buffers.decode(code, frame);
    assert_eq!(buffers, before);
    outcome.expect_err("a refusal").number()
}

/// Whether a decoding is accepted in buffers of these lengths.
fn is_accepted(code: &[u8], frame: &[u8], lengths: [usize; 4]) -> bool {
    Buffers::zeroed(lengths).decode(code, frame).is_ok()
}

/// The code line with bytes replaced from a place on.
fn with(place: usize, replacement: &str) -> Vec<u8> {
    let mut line = bytes(CODE);
    let replacement = bytes(replacement);
    line[place..place + replacement.len()].copy_from_slice(&replacement);
    line
}

#[test]
fn under_six_bytes_is_5_before_6() {
    for length in 0..6 {
        assert_eq!(refused_code(&bytes(CODE)[..length]), 5);
        assert_eq!(refused_code(&bytes("FF0000000000")[..length]), 5);
    }
}

#[test]
fn the_first_byte_is_6_before_7() {
    for first in [
        "00", "01", "07", "08", "10", "11", "17", "20", "21", "27", "30", "31", "37", "42", "FF",
    ] {
        assert_eq!(refused_code(&with(0, first)), 6);
        assert_eq!(refused_code(&with(0, &format!("{first}0000"))), 6);
    }
}

#[test]
fn n_and_m_are_7_before_8() {
    for fault in [
        "0000 01", "0101 01", "FFFF 01", "0003 00", "0003 81", "0003 FF",
    ] {
        assert_eq!(refused_code(&with(1, fault)), 7);
        assert_eq!(refused_code(&with(1, &format!("{fault} 00"))), 7);
    }
}

#[test]
fn g_and_i_are_8_before_5_and_9() {
    for fault in ["00 01", "11 01", "FF 01", "10 00"] {
        assert_eq!(refused_code(&with(4, fault)), 8);
        assert_eq!(refused_code(&with(4, fault)[..6]), 8);
        assert_eq!(refused_code(&with(4, &format!("{fault} 01"))), 8);
    }
    for accepted in ["01 01", "10 01", "10 FF"] {
        assert!(code_line(&with(4, accepted)).is_ok());
    }
}

#[test]
fn a_missing_degree_byte_is_5() {
    assert_eq!(refused_code(&bytes(CODE)[..6]), 5);
    let second_check_missing = with(3, "02");
    assert_eq!(refused_code(&second_check_missing), 5);
}

#[test]
fn a_degree_is_9_before_5_for_the_edges() {
    for degree in ["00", "01", "21", "FF"] {
        assert_eq!(refused_code(&with(6, degree)), 9);
        assert_eq!(refused_code(&with(6, degree)[..7]), 9);
    }
    for degree in ["02", "03", "20"] {
        assert_eq!(refused_code(&with(6, degree)[..7]), 5);
    }
}

/// A check of one edge that is right but for its degree, alone and behind an accepted check.
#[test]
fn a_check_on_one_column_is_9() {
    let alone = bytes("020003011001 01 000001");
    assert_eq!(refused_code(&alone), 9);
    let second = [with(3, "02"), bytes("01 000001")].concat();
    assert_eq!(refused_code(&second), 9);
    let of_two_columns = [with(3, "02"), bytes("02 000001 000101")].concat();
    assert!(code_line(&of_two_columns).is_ok());
}

#[test]
fn an_edge_total_above_1024_is_9_before_5_for_the_edges() {
    let mut line = bytes("06 0100 21 10 01");
    for _ in 0..32 {
        line.push(32);
        line.extend((0..32).flat_map(|column| [0, column, 1]));
    }
    assert_eq!(refused_code(&line), 5);
    line.push(2);
    assert_eq!(refused_code(&line), 9);
    line.extend(bytes("000001 000101"));
    assert_eq!(refused_code(&line), 9);
}

#[test]
fn missing_edge_bytes_are_5_before_10() {
    assert_eq!(refused_code(&bytes(CODE)[..15]), 5);
    assert_eq!(refused_code(&with(7, "FFFF")[..15]), 5);
}

#[test]
fn a_column_is_10_before_11_of_the_same_edge() {
    for (place, fault) in [
        (7, "0003"),
        (7, "FFFF"),
        (10, "0000"),
        (10, "0100"),
        (13, "0001"),
        (13, "0000"),
        (13, "0003"),
    ] {
        assert_eq!(refused_code(&with(place, fault)), 10);
        assert_eq!(refused_code(&with(place, &format!("{fault}00"))), 10);
    }
}

#[test]
fn a_weight_is_11_before_later_faults() {
    for weight in ["00", "04", "FF"] {
        for place in [9, 12, 15] {
            assert_eq!(refused_code(&with(place, weight)), 11);
        }
        let next_column_too = with(9, &format!("{weight} 0000"));
        assert_eq!(refused_code(&next_column_too), 11);
        let left_over_too = [with(15, weight), vec![0]].concat();
        assert_eq!(refused_code(&left_over_too), 11);
        let mut next_degree_too = [with(15, weight), vec![1]].concat();
        next_degree_too[3] = 2;
        assert_eq!(refused_code(&next_degree_too), 11);
    }
}

#[test]
fn bytes_left_over_are_5() {
    assert_eq!(refused_code(&[bytes(CODE), vec![0]].concat()), 5);
    assert_eq!(
        refused_code(&[bytes(CODE), bytes("03000001000101000201")].concat()),
        5
    );
}

#[test]
fn decode_12_13_2_3_4_19() {
    let code = bytes(CODE);
    let number = |frame: &str, lengths| refused_decoding(&code, &bytes(frame), lengths);
    let long_enough = [3, 12, 18, 3];
    for frame in [
        "",
        "05000907 00040803 000602",
        "05000907 00040803 0006020A 00",
    ] {
        assert_eq!(number(frame, long_enough), 12);
    }
    assert_eq!(number("05010907 01040803 010602", long_enough), 12);
    let without_zero = "05000907 01040803 0006020A";
    assert_eq!(number(without_zero, long_enough), 13);
    for (lengths, expected) in [
        ([2, 12, 18, 3], 2),
        ([0, 11, 18, 3], 2),
        ([3, 11, 18, 3], 3),
        ([3, 0, 17, 3], 3),
        ([3, 12, 17, 3], 4),
        ([3, 12, 0, 2], 4),
        ([3, 12, 18, 2], 19),
        ([4, 13, 19, 0], 19),
        // Each with all that come after it.
        ([2, 11, 17, 2], 2),
        ([3, 11, 17, 2], 3),
        ([3, 12, 17, 2], 4),
    ] {
        assert_eq!(number(without_zero, lengths), 13);
        assert_eq!(number(FRAME, lengths), expected);
    }
    assert!(is_accepted(&code, &bytes(FRAME), long_enough));
}

#[test]
fn a_column_in_no_check_needs_a_cost_of_0() {
    let code = bytes("020004011001 03 000001 000101 000201");
    let frame = bytes("05000907 00040803 0006020A 01010101");
    assert_eq!(refused_decoding(&code, &frame, [4, 16, 18, 4]), 13);
}

#[test]
fn short_stores_and_margins_are_refused_even_when_no_iteration_is_made() {
    let satisfied = bytes("00040803 00040803 0006020A");
    for (lengths, expected) in [
        ([3, 12, 17, 3], 4),
        ([3, 12, 17, 2], 4),
        ([3, 12, 18, 2], 19),
    ] {
        let number = refused_decoding(&bytes(CODE), &satisfied, lengths);
        assert_eq!(number, expected);
    }
}

/// Document 02, §6: "19, margin buffer shorter than N", whatever the other buffers have to spare.
#[test]
fn a_margin_buffer_is_as_long_as_n() {
    let code = bytes("020007011001 03 000001 000101 000201");
    let frame = [bytes(FRAME), bytes("00010101").repeat(4)].concat();
    for length in 0..7 {
        let lengths = [30, 40, 50, length];
        assert_eq!(refused_decoding(&code, &frame, lengths), 19);
    }
    assert!(is_accepted(&code, &frame, [7, 28, 18, 7]));
}

/// Document 02, §3: "4 and 16 use the new length".
#[test]
fn a_store_for_two_deviations_is_4_with_three() {
    let code = with(0, "22");
    for length in [0, 18, 23] {
        let lengths = [3, 12, length, 3];
        assert_eq!(refused_decoding(&code, &bytes(FRAME), lengths), 4);
    }
    let number = refused_decoding(&code, &bytes(FRAME), [3, 11, 23, 3]);
    assert_eq!(number, 3);
    assert!(is_accepted(&code, &bytes(FRAME), [3, 12, 24, 3]));
}
