//! Document 01, "Bench table": every case. "p = 2, weights 1, unless said." Document 02, §1: "the bench
//! cases of degree 2 and 3 become 1 and 2".

use reference_decoder::sample::bytes;
use reference_decoder::{check, code_line, expand, product};

/// The record of a check with p = 2.
fn record(weights: &[u8], costs: &[u8]) -> Vec<u8> {
    let mut record = vec![0; weights.len() + 15];
    let written = check(2, weights, costs, &mut record).expect("an accepted check");
    assert_eq!(written, record.len());
    record
}

/// A code line with p = 2 whose single check has the first columns of the code, with weights 1.
fn code_of_degree(degree: u8, g: u8) -> Vec<u8> {
    let mut line = vec![2, 0, 40, 1, g, 1, degree];
    for column in 0..degree {
        line.extend([0, column, 1]);
    }
    line
}

#[test]
fn products() {
    assert_eq!(product(3, 3, 3), Ok(5));
    assert_eq!(product(3, 4, 4), Ok(6));
    assert_eq!(product(4, 2, 9), Ok(1));
    assert_eq!(product(6, 2, 32), Ok(3));
}

#[test]
fn three_columns() {
    let costs = [0, 5, 7, 9, 0, 4, 8, 3, 0, 6, 2, 10];
    let expected = bytes("000000 040105FF00 020207FF00 030107FF00");
    assert_eq!(record(&[1, 1, 1], &costs), expected);
}

#[test]
fn another_hard_decision_changes_the_shifts_only() {
    let costs = [5, 0, 9, 7, 0, 4, 8, 3, 0, 6, 2, 10];
    let expected = bytes("000101 040105FF00 020207FF00 030107FF00");
    assert_eq!(record(&[1, 1, 1], &costs), expected);
}

#[test]
fn two_columns_with_greater_costs() {
    let costs = [0, 1, 9, 9, 0, 9, 1, 9, 0, 9, 9, 9];
    let expected = bytes("000000 010009FF00 010109FF00 0200090109");
    assert_eq!(record(&[1, 1, 1], &costs), expected);
}

#[test]
fn all_costs_0() {
    let expected = bytes("000000 00FF00FF00 00FF00FF00 00FF00FF00");
    assert_eq!(record(&[1, 1, 1], &[0; 12]), expected);
}

#[test]
fn costs_of_255() {
    let costs = [0, 255, 255, 255].repeat(3);
    let expected = bytes("000000 FFFF00FF00 FFFF00FF00 FFFF00FF00");
    assert_eq!(record(&[1, 1, 1], &costs), expected);
}

#[test]
fn weights_1_2_3() {
    let costs = [9, 0, 9, 9].repeat(3);
    assert_eq!(record(&[1, 2, 3], &costs)[..3], [1, 2, 3]);
}

#[test]
fn degrees_of_a_check() {
    let outcome = |degree: usize| {
        let mut record = [0; 64];
        check(2, &vec![1; degree], &vec![0; 4 * degree], &mut record).map_err(|r| r.number())
    };
    assert_eq!(outcome(1), Err(9));
    assert_eq!(outcome(2), Ok(17));
    assert_eq!(outcome(32), Ok(47));
    assert_eq!(outcome(33), Err(9));
}

#[test]
fn degrees_of_an_expansion() {
    let outcome = |degree: usize| {
        let mut record = vec![0; degree];
        record.extend([0, 0xFF, 0, 0xFF, 0].repeat(3));
        let answer = expand(2, &vec![1; degree], &record, &mut [0; 200]);
        answer.map_err(|r| r.number())
    };
    assert_eq!(outcome(1), Err(9));
    assert_eq!(outcome(2), Ok(8));
    assert_eq!(outcome(32), Ok(128));
    assert_eq!(outcome(33), Err(9));
}

#[test]
fn degrees_and_scales_of_a_code_line() {
    let outcome = |line: &[u8]| code_line(line).map(|_| ()).map_err(|r| r.number());
    assert_eq!(outcome(&code_of_degree(1, 1)), Err(9));
    assert_eq!(outcome(&code_of_degree(2, 1)), Ok(()));
    assert_eq!(outcome(&code_of_degree(32, 1)), Ok(()));
    assert_eq!(outcome(&code_of_degree(33, 1)), Err(9));
    assert_eq!(outcome(&code_of_degree(2, 16)), Ok(()));
    assert_eq!(outcome(&code_of_degree(2, 17)), Err(8));
}
