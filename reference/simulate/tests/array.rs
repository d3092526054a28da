//! The (248,137) code against its description.

use petsivola::Edition;
use reference_decoder::code_line;
use simulate::array;
use simulate::encoder::Encoder;

#[test]
fn sizes_and_rank() {
    let code = array::code();
    assert_eq!(
        (code.columns, code.checks.len(), code.edges()),
        (248, 124, 992)
    );
    assert!(code.checks.iter().all(|check| check.len() == 8));
    for column in 0..code.columns {
        let edges = code.checks.iter().flatten();
        assert_eq!(edges.filter(|edge| edge.column == column).count(), 4);
    }
    // The rank of the checks is 248 - 137 = 111.
    assert_eq!(Encoder::new(&code).message_length(), 137);
}

/// "block of alpha^k: alpha^k at position k of its first row, each next row shifted by one and
/// multiplied by alpha", row by row as it is said.
#[test]
fn blocks_are_as_described() {
    let code = array::code();
    let field = &code.field;
    for i in 0..4 {
        for (block, j) in (4..12).enumerate() {
            let k = field.exponent(field.power(j - i) ^ 1);
            let mut row = [0; 31];
            row[k] = field.power(k);
            for check in &code.checks[31 * i..][..31] {
                let edge = check[block];
                let mut dense = [0; 31];
                dense[edge.column - 31 * block] = edge.weight;
                assert_eq!(dense, row);
                row.rotate_right(1);
                row = row.map(|weight| field.product(weight, 2));
            }
        }
    }
}

#[test]
fn the_code_line_is_accepted() {
    let code = array::code();
    for (deviations, edition, first) in [
        (2, Edition::Sum, 0x05),
        (2, Edition::Greatest, 0x15),
        (3, Edition::Sum, 0x25),
        (3, Edition::Greatest, 0x35),
    ] {
        let read = code_line(&code.line(deviations, edition, 8, 15)).unwrap();
        assert_eq!(
            (read.first, read.n, read.m, read.g, read.limit),
            (first, 248, 124, 8, 15)
        );
        assert_eq!(read.frame_length(), code.frame_length());
        assert_eq!(read.store_length(), code.store_length(deviations));
        for (read, check) in read.checks.iter().zip(&code.checks) {
            let columns: Vec<usize> = check.iter().map(|edge| edge.column).collect();
            let weights: Vec<u8> = check.iter().map(|edge| edge.weight).collect();
            assert_eq!((&read.columns, &read.weights), (&columns, &weights));
        }
    }
}
