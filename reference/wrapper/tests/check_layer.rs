//! `product`, `check`, `sweep` and `expand` on the documents' own values and on inputs that no caller means. The
//! comparison with the reference decoder is in the package `compare`.

use petsivola::{check, expand, lengths, product, sweep, Refusal, Rule};

/// "Columns 0 5 7 9 / 0 4 8 3 / 0 6 2 10: record 000000 040105FF00 020207FF00 030107FF00."
const COSTS: [u8; 12] = [0, 5, 7, 9, 0, 4, 8, 3, 0, 6, 2, 10];
const RECORD: [u8; 18] = [0, 0, 0, 4, 1, 5, 255, 0, 2, 2, 7, 255, 0, 3, 1, 7, 255, 0];

#[test]
fn product_of_the_bench_table() {
    assert_eq!(product(3, 3, 3), Ok(5));
    assert_eq!(product(3, 4, 4), Ok(6));
    assert_eq!(product(4, 2, 9), Ok(1));
    assert_eq!(product(6, 2, 32), Ok(3));
    assert_eq!(product(2, 0, 3), Ok(0));
    assert_eq!(product(2, 4, 0), Err(Refusal::Weight));
    assert_eq!(product(7, 0, 0), Err(Refusal::FieldSize));
}

#[test]
fn check_writes_the_record_and_nothing_else() {
    let mut record = [0xA5; 20];
    assert_eq!(check(2, &[1, 1, 1], &COSTS, &mut record), Ok(18));
    assert_eq!(record[..18], RECORD);
    assert_eq!(record[18..], [0xA5; 2]);
    assert_eq!(lengths::record(2, 3), Some(18));
}

/// Document 02, §1: "In such a check a cheapest choice may deviate in both columns, so E would be a
/// cost nobody was sent". At a = 1 symbols 2 and 3 cost 2 together, and either column is sent 9.
#[test]
fn check_and_expand_of_two_columns() {
    let costs = [0, 9, 1, 9, 0, 9, 9, 1];
    let expected = [0, 0, 9, 255, 0, 255, 0, 1, 0, 9, 255, 0, 1, 1, 9, 255, 0];
    let (mut record, mut sent) = ([0xA5; 18], [0xA5; 9]);
    assert_eq!(check(2, &[1, 1], &costs, &mut record), Ok(17));
    assert_eq!(record[..17], expected);
    assert_eq!(record[17], 0xA5);
    assert_eq!(expand(2, &[1, 1], &record[..17], &mut sent), Ok(8));
    assert_eq!(sent, [0, 9, 9, 1, 0, 9, 1, 9, 0xA5]);
    assert_eq!(lengths::record(2, 2), Some(17));
    assert_eq!(lengths::expansion(2, 2), Some(8));
}

/// "Degree 2 and 33: 9. Degree 3 and 32 pass." Document 02, §1: "the bench cases of degree 2 and 3
/// become 1 and 2".
#[test]
fn degrees_of_the_bench_table() {
    for degree in 0..=40 {
        let (weights, costs) = (vec![1; degree], vec![0; 4 * degree]);
        let mut unused = vec![0; degree];
        unused.extend([0, 255, 0, 255, 0].repeat(3));
        let (mut record, mut sent) = ([0xA5; 55], [0xA5; 160]);
        let mut swept = record;
        let answers = [
            check(2, &weights, &costs, &mut record),
            sweep(2, &weights, &costs, &mut swept),
            expand(2, &weights, &unused, &mut sent),
        ];
        if (2..=32).contains(&degree) {
            assert_eq!(answers, [degree + 15, degree + 15, 4 * degree].map(Ok));
            assert_eq!(record[..degree + 15], unused);
        } else {
            assert_eq!(answers, [Err(Refusal::Degree); 3]);
            assert_eq!((record, sent), ([0xA5; 55], [0xA5; 160]));
        }
        assert_eq!(swept, record);
    }
}

#[test]
fn a_refused_check_writes_nothing() {
    let mut record = [0xA5; 17];
    let answer = check(2, &[1, 1, 1], &COSTS, &mut record);
    assert_eq!(answer, Err(Refusal::ShortStore));
    assert_eq!(record, [0xA5; 17]);
}

#[test]
fn expand_writes_the_sent_costs_and_nothing_else() {
    let mut sent = [0xA5; 13];
    assert_eq!(expand(2, &[1, 1, 1], &RECORD, &mut sent), Ok(12));
    assert_eq!(sent, [0, 4, 2, 3, 0, 5, 2, 7, 0, 4, 7, 3, 0xA5]);
    assert_eq!(lengths::expansion(2, 3), Some(12));
    let answer = expand(2, &[1, 1, 1], &RECORD[..17], &mut sent);
    assert_eq!(answer, Err(Refusal::Record));
    let answer = expand(2, &[1, 1, 1], &RECORD, &mut sent[..11]);
    assert_eq!(answer, Err(Refusal::ShortBuffer));
}

/// Document 02, §3. Symbol 1 of column 0, 2 of column 1 and 4 of column 2 cost 1, all else but the
/// decisions 9: 7 is made by three deviations for 3, and a column of the cheapest choice is sent 9.
#[test]
fn check_and_expand_with_three_deviations() {
    let mut costs = [9; 32];
    for (column, cheap) in costs.chunks_exact_mut(8).zip([1, 2, 4, 0]) {
        column[cheap] = 1;
        column[0] = 0;
    }
    let expected = [
        &[0, 0, 0, 0][..],
        &[1, 0, 9, 255, 0, 255, 0],
        &[1, 1, 9, 255, 0, 255, 0],
        &[2, 0, 9, 1, 9, 255, 0],
        &[1, 2, 9, 255, 0, 255, 0],
        &[2, 0, 9, 2, 9, 255, 0],
        &[2, 1, 9, 2, 9, 255, 0],
        &[3, 0, 9, 1, 9, 2, 9],
    ]
    .concat();
    let (mut record, mut sent) = ([0xA5; 54], [0xA5; 33]);
    assert_eq!(check(0x23, &[1; 4], &costs, &mut record), Ok(53));
    assert_eq!(record[..53], expected);
    assert_eq!(record[53], 0xA5);
    assert_eq!(expand(0x23, &[1; 4], &record[..53], &mut sent), Ok(32));
    assert_eq!(sent[..8], [0, 9, 1, 9, 1, 9, 2, 9]);
    assert_eq!(sent[24..], [0, 1, 1, 2, 1, 2, 2, 3, 0xA5]);
    assert_eq!(lengths::record(0x23, 4), Some(53));
    // With k = 2 nothing makes 7 for less than 9.
    assert_eq!(check(0x03, &[1; 4], &costs, &mut record), Ok(39));
    assert_eq!(record[34..39], [9, 255, 0, 255, 0]);
    assert_eq!(record[39..53], expected[39..]);
    let answer = check(0x23, &[1; 4], &costs, &mut record[..52]);
    assert_eq!(answer, Err(Refusal::ShortStore));
}

/// Document 02, §5, worked out by hand: at a = 1 symbols 3 of column 1 and 2 of column 2 cost 3 together,
/// and column 1 alone costs 3 at a = 3, where symbols 1 and 2 of the others cost 5.
#[test]
fn check_and_expand_of_the_min_max_edition() {
    let expected = [0, 0, 0, 3, 1, 5, 2, 4, 2, 2, 5, 255, 0, 3, 1, 5, 255, 0];
    let (mut record, mut sent) = ([0xA5; 25], [0xA5; 13]);
    assert_eq!(check(0x12, &[1; 3], &COSTS, &mut record), Ok(18));
    assert_eq!(record[..18], expected);
    assert_eq!(record[18..], [0xA5; 7]);
    assert_eq!(expand(0x12, &[1; 3], &expected, &mut sent), Ok(12));
    assert_eq!(sent, [0, 3, 2, 3, 0, 5, 2, 5, 0, 4, 5, 3, 0xA5]);
    // With k = 3 each a has an unused pair more.
    assert_eq!(check(0x32, &[1; 3], &COSTS, &mut record), Ok(24));
    let (pairs, _) = expected[3..].as_chunks::<5>();
    for (entry, of_two) in record[3..24].chunks_exact(7).zip(pairs) {
        assert_eq!(entry, [&of_two[..], &[255, 0]].concat());
    }
    assert_eq!(record[24], 0xA5);
}

/// A first byte, weights, costs, and the record.
type Swept = (u8, &'static [u8], &'static [u8], &'static [u8]);

/// The bench table's check with both k in both editions, another whose decisions are not all 0, two columns,
/// and weights 1, 2, 3 with decisions 1.
const SWEPT: [Swept; 7] = [
    (0x02, &[1, 1, 1], &COSTS, &RECORD),
    (
        0x12,
        &[1, 1, 1],
        &COSTS,
        &[0, 0, 0, 3, 1, 5, 2, 4, 2, 2, 5, 255, 0, 3, 1, 5, 255, 0],
    ),
    (
        0x22,
        &[1, 1, 1],
        &COSTS,
        &[
            0, 0, 0, 4, 1, 5, 255, 0, 255, 0, 2, 2, 7, 255, 0, 255, 0, 3, 1, 7, 255, 0, 255, 0,
        ],
    ),
    (
        0x32,
        &[1, 1, 1],
        &COSTS,
        &[
            0, 0, 0, 3, 1, 5, 2, 4, 255, 0, 2, 2, 5, 255, 0, 255, 0, 3, 1, 5, 255, 0, 255, 0,
        ],
    ),
    (
        0x02,
        &[1, 1, 1],
        &[5, 0, 9, 7, 0, 4, 8, 3, 0, 6, 2, 10],
        &[0, 1, 1, 4, 1, 5, 255, 0, 2, 2, 7, 255, 0, 3, 1, 7, 255, 0],
    ),
    (
        0x02,
        &[1, 1],
        &[0, 9, 1, 9, 0, 9, 9, 1],
        &[0, 0, 9, 255, 0, 255, 0, 1, 0, 9, 255, 0, 1, 1, 9, 255, 0],
    ),
    (
        0x02,
        &[1, 2, 3],
        &[255, 0, 255, 255, 255, 0, 255, 255, 255, 0, 255, 255],
        &[
            1, 2, 3, 255, 255, 0, 255, 0, 255, 255, 0, 255, 0, 255, 255, 0, 255, 0,
        ],
    ),
];

/// Document 02, §7: "It writes the same record for each accepted check".
#[test]
fn sweep_writes_the_record_and_nothing_else() {
    for (first, weights, costs, expected) in SWEPT {
        let mut record = [0xA5; 26];
        let written = sweep(first, weights, costs, &mut record);
        assert_eq!(written, Ok(expected.len()));
        assert_eq!(lengths::record(first, weights.len()), Some(expected.len()));
        assert_eq!(record[..expected.len()], *expected);
        assert!(record[expected.len()..].iter().all(|&byte| byte == 0xA5));
        let mut of_check = [0xA5; 26];
        assert_eq!(check(first, weights, costs, &mut of_check), written);
        assert_eq!(of_check, record);
    }
}

/// "refuses the same ones with the same numbers": each refusal with all that come after it.
#[test]
fn a_refused_sweep_writes_nothing() {
    let no_zero = [9; 12];
    for (first, weights, costs, refusal) in [
        (7, &[0][..], &no_zero[..11], Refusal::FieldSize),
        (2, &[0], &no_zero[..11], Refusal::Degree),
        (2, &[1, 0, 1], &no_zero[..11], Refusal::Weight),
        (2, &[1, 4, 1], &no_zero[..11], Refusal::Weight),
        (2, &[1, 1, 1], &no_zero[..11], Refusal::CostCount),
        (2, &[1, 1, 1], &no_zero, Refusal::NoZeroCost),
        (2, &[1, 1, 1], &COSTS, Refusal::ShortStore),
    ] {
        let mut record = [0xA5; 17];
        let answer = sweep(first, weights, costs, &mut record);
        assert_eq!((answer, record), (Err(refusal), [0xA5; 17]));
        assert_eq!(check(first, weights, costs, &mut record), Err(refusal));
    }
}

/// Of every first byte; the product takes p alone.
#[test]
fn empty_slices_are_answered() {
    for first in 0..=u8::MAX {
        let refusal = Rule::try_from(first).map_or_else(|refusal| refusal, |_| Refusal::Degree);
        assert_eq!(check(first, &[], &[], &mut []), Err(refusal));
        assert_eq!(sweep(first, &[], &[], &mut []), Err(refusal));
        assert_eq!(expand(first, &[], &[], &mut []), Err(refusal));
        let expected = match first {
            2..=6 => Ok(0),
            _ => Err(Refusal::FieldSize),
        };
        assert_eq!(product(first, 0, 0), expected);
    }
}
