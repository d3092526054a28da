//! Document 01, "Who causes which refusal": product, check, sweep, expand and line. Each refusal is met on
//! its own and, for the order, together with the one after it. A refused call changes no lent byte.

use reference_decoder::sample::{bytes, Generator};
use reference_decoder::{check, expand, line, product, sweep, Refusal};

/// Calls with a lent buffer of arbitrary content, `room` long, and gives the refusal's number; the
/// buffer has not changed.
fn refused(room: usize, call: impl Fn(&mut [u8]) -> Result<usize, Refusal>) -> u8 {
    let before = Generator::new(60).bytes(room);
    let mut buffer = before.clone();
    let refusal = call(&mut buffer).expect_err("a refusal");
    assert_eq!(buffer, before);
    refusal.number()
}

#[test]
fn product_6_11() {
    let number = |p, a, b| product(p, a, b).map_err(|refusal| refusal.number());
    for p in [0, 1, 7, 255] {
        assert_eq!(number(p, 0, 0), Err(6));
        assert_eq!(number(p, 255, 255), Err(6));
    }
    for p in 2..=6 {
        let q = 1 << p;
        assert_eq!(number(p, 0, q - 1), Ok(0));
        assert_eq!(number(p, q - 1, 1), Ok(q - 1));
        for bad in [q, 255] {
            assert_eq!(number(p, bad, 0), Err(11));
            assert_eq!(number(p, 0, bad), Err(11));
        }
    }
}

/// A call on one check: a first byte, weights, costs and a record buffer.
type Check = fn(u8, &[u8], &[u8], &mut [u8]) -> Result<usize, Refusal>;

/// Document 02, §7: "refuses the same ones with the same numbers".
#[test]
fn check_and_sweep_6_9_11_12_13_4() {
    for call in [check, sweep] {
        refused_checks(call);
    }
}

fn refused_checks(check: Check) {
    let number = |first, weights: &[u8], costs: &[u8], room| {
        refused(room, |record| check(first, weights, costs, record))
    };
    let (weights, costs) = ([1, 2, 3], [0; 12]);
    let without_zero = [0, 9, 9, 9, 9, 9, 9, 9, 0, 9, 9, 9];
    for first in [
        0x00, 0x01, 0x07, 0x11, 0x17, 0x21, 0x27, 0x31, 0x37, 0x42, 0xFF,
    ] {
        assert_eq!(number(first, &weights, &costs, 18), 6);
        assert_eq!(number(first, &[1], &costs, 18), 6);
    }
    for degree in [0, 1, 33, 34, 256, 258] {
        assert_eq!(number(2, &vec![1; degree], &vec![0; 4 * degree], 300), 9);
        assert_eq!(number(2, &vec![0; degree], &vec![0; 4 * degree], 300), 9);
    }
    for bad in [0, 4, 255] {
        for place in 0..3 {
            let mut weights = weights;
            weights[place] = bad;
            assert_eq!(number(2, &weights, &costs, 18), 11);
            assert_eq!(number(2, &weights, &costs[1..], 18), 11);
        }
    }
    for count in [0, 11, 13, 16] {
        assert_eq!(number(2, &weights, &vec![0; count], 18), 12);
        assert_eq!(number(2, &weights, &vec![9; count], 18), 12);
    }
    assert_eq!(number(2, &weights, &without_zero, 18), 13);
    assert_eq!(number(2, &weights, &without_zero, 17), 13);
    for room in [0, 17] {
        assert_eq!(number(2, &weights, &costs, room), 4);
    }
    assert_eq!(check(2, &weights, &costs, &mut [0; 18]), Ok(18));
}

/// The refusals after 9, at both bounds of the degree.
#[test]
fn check_and_sweep_11_12_13_4_at_degree_2_and_32() {
    for call in [check, sweep] {
        refused_at_bounds(call);
    }
}

fn refused_at_bounds(check: Check) {
    for (first, degree, entries) in [(0x02, 2, 15), (0x02, 32, 15), (0x22, 2, 21), (0x22, 32, 21)] {
        let number = |weights: &[u8], costs: &[u8], room| {
            refused(room, |record| check(first, weights, costs, record))
        };
        let (weights, costs, length) = (vec![3; degree], vec![0; 4 * degree], degree + entries);
        for place in [0, degree - 1] {
            let mut weights = weights.clone();
            weights[place] = 4;
            assert_eq!(number(&weights, &costs, length), 11);
            let mut costs = costs.clone();
            costs[4 * place..][..4].fill(9);
            assert_eq!(number(&vec![3; degree], &costs, length), 13);
        }
        for count in [0, 4 * degree - 4, 4 * degree - 1, 4 * degree + 1] {
            assert_eq!(number(&weights, &vec![0; count], length), 12);
        }
        for room in [0, length - 1] {
            assert_eq!(number(&weights, &costs, room), 4);
        }
        let answer = check(first, &weights, &costs, &mut vec![0; length]);
        assert_eq!(answer, Ok(length));
    }
}

#[test]
fn expand_6_9_11_16_2() {
    let number = |first, weights: &[u8], record: &[u8], room| {
        refused(room, |out| expand(first, weights, record, out))
    };
    let weights = [1, 2, 3];
    let record = bytes("010203 0900FF020A FFFF00FF00 000101FF00");
    for first in [
        0x00, 0x01, 0x07, 0x11, 0x17, 0x21, 0x27, 0x31, 0x37, 0x42, 0xFF,
    ] {
        assert_eq!(number(first, &weights, &record, 12), 6);
        assert_eq!(number(first, &[1], &record, 12), 6);
    }
    for degree in [0, 1, 33, 256, 258] {
        assert_eq!(number(2, &vec![1; degree], &vec![0; degree + 15], 2_000), 9);
        assert_eq!(number(2, &vec![0; degree], &vec![0; degree + 15], 2_000), 9);
    }
    for bad in [0, 4, 255] {
        assert_eq!(number(2, &[1, bad, 3], &record, 12), 11);
        assert_eq!(number(2, &[1, bad, 3], &record[1..], 12), 11);
    }
    assert_eq!(number(2, &weights, &record[1..], 12), 16);
    assert_eq!(number(2, &weights, &record[1..], 11), 16);
    for room in [0, 11] {
        assert_eq!(number(2, &weights, &record, room), 2);
    }
    assert_eq!(expand(2, &weights, &record, &mut [0; 12]), Ok(12));
}

/// The refusals after 9, at both bounds of the degree.
#[test]
fn expand_11_16_2_at_degree_2_and_32() {
    for (first, degree, entry) in [(0x02, 2, 5), (0x02, 32, 5), (0x22, 2, 7), (0x22, 32, 7)] {
        let number = |weights: &[u8], record: &[u8], room| {
            refused(room, |out| expand(first, weights, record, out))
        };
        let (weights, written) = (vec![3; degree], 4 * degree);
        let last = u8::try_from(degree - 1).unwrap();
        let mut record = vec![1; degree];
        for used in [
            [0, 0, 1, last, 1],
            [0, last, 1, 0xFF, 0],
            [0, 0xFF, 0, 0xFF, 0],
        ] {
            record.extend([&used[..], &[0xFF, 0]].concat().iter().take(entry));
        }
        for place in [0, degree - 1] {
            let mut weights = weights.clone();
            weights[place] = 0;
            assert_eq!(number(&weights, &record, written), 11);
        }
        let mut past_the_last = record.clone();
        past_the_last[degree + 3] = last + 1;
        assert_eq!(number(&weights, &past_the_last, written), 16);
        assert_eq!(number(&weights, &record[1..], written), 16);
        for room in [0, written - 1] {
            assert_eq!(number(&weights, &record, room), 2);
        }
        let answer = expand(first, &weights, &record, &mut vec![0; written]);
        assert_eq!(answer, Ok(written));
    }
}

#[test]
fn each_fault_of_a_record_is_16() {
    for (record, fault) in [
        ("000000 00FF00FF00 00FF00FF00 00FF00FF", "a byte missing"),
        (
            "000000 00FF00FF00 00FF00FF00 00FF00FF00 00",
            "a byte left over",
        ),
        ("", "no bytes"),
        (
            "000400 00FF00FF00 00FF00FF00 00FF00FF00",
            "a shift not below q",
        ),
        ("0000FF 00FF00FF00 00FF00FF00 00FF00FF00", "a shift of FF"),
        (
            "000000 00FF01FF00 00FF00FF00 00FF00FF00",
            "an unused pair FF 01, first",
        ),
        (
            "000000 000001FFFF 00FF00FF00 00FF00FF00",
            "an unused pair FF FF, second",
        ),
        (
            "000000 00FF000001 00FF00FF00 00FF00FF00",
            "an unused pair before a used one",
        ),
        ("000000 00FF00FF00 0002010101 00FF00FF00", "falling columns"),
        ("000000 00FF00FF00 0001010101 00FF00FF00", "equal columns"),
        (
            "000000 00FF00FF00 000301FF00 00FF00FF00",
            "a column not below d, first",
        ),
        (
            "000000 00FF00FF00 0000010301 00FF00FF00",
            "a column not below d, second",
        ),
        ("000000 00FF00FF00 00FE01FF00 00FF00FF00", "a column of FE"),
        (
            "000000 00FF00FF00 00FF00FF00 050005FF00",
            "S equal to E, first",
        ),
        (
            "000000 00FF00FF00 00FF00FF00 0500060105",
            "S equal to E, second",
        ),
        ("000000 00FF00FF00 00FF00FF00 050004FF00", "S below E"),
        (
            "000000 00FF00FF00 00FF00FF00 FF00FFFF00",
            "E of 255 with a pair",
        ),
    ] {
        let number = refused(12, |out| expand(2, &[1, 1, 1], &bytes(record), out));
        assert_eq!(number, 16, "{fault}");
    }
}

/// The faults of pairs with k = 3, in the bytes of the last a; all others are in order.
#[test]
fn each_fault_of_three_pairs_is_16() {
    let answer = |entry: &str, degree: usize| {
        let unused = "00FF00FF00FF00";
        let record = format!("{}{unused}{unused}{entry}", "00".repeat(degree));
        expand(0x22, &vec![1; degree], &bytes(&record), &mut [0; 16]).map_err(Refusal::number)
    };
    for accepted in [
        "05 0006 0107 02FF",
        "05 0006 03FF FF00",
        "05 0206 FF00 FF00",
        "05 FF00 FF00 FF00",
    ] {
        assert_eq!(answer(accepted, 4), Ok(16));
    }
    for (entry, fault) in [
        ("05 FF00 0106 0206", "an unused pair before two used ones"),
        ("05 0006 FF00 0206", "an unused pair between two used ones"),
        ("05 FF00 FF00 0206", "two unused pairs before a used one"),
        ("05 0006 0106 FF01", "an unused pair FF 01, third"),
        ("05 0006 FF01 FF00", "an unused pair FF 01, second"),
        ("05 0106 0206 0206", "equal columns, second and third"),
        ("05 0106 0306 0206", "falling columns, second and third"),
        ("05 0106 0006 0206", "falling columns, first and second"),
        ("05 0206 0306 0006", "falling columns, first and third"),
        ("05 0106 0206 0406", "a column not below d, third"),
        ("05 0106 0206 0305", "S equal to E, third"),
        ("05 0106 0204 0306", "S below E, second"),
        ("05 0006 0107", "one pair missing"),
        ("05 0006 0107 0208 0309", "one pair more"),
    ] {
        assert_eq!(answer(entry, 4), Err(16), "{fault}");
    }
    // With two columns at most two pairs are used.
    assert_eq!(answer("05 0006 0107 FF00", 2), Ok(8));
    assert_eq!(answer("05 0006 0107 0208", 2), Err(16));
}

#[test]
fn line_15_14_2() {
    let number = |text: &[u8], room| refused(room, |out| line(text, out));
    for count in [32_769, 32_770, 100_000] {
        assert_eq!(number(&vec![b'0'; count], count), 15);
        assert_eq!(number(&vec![b'x'; count], count), 15);
    }
    for text in [
        &b"0"[..],
        b"000",
        b"0x",
        b"0\n",
        b"\n0",
        b"0a",
        b"00\r\n",
        b"  ",
    ] {
        assert_eq!(number(text, 2), 14);
        assert_eq!(number(text, 0), 14);
    }
    assert_eq!(number(b"0000", 1), 2);
    assert_eq!(number(b"00", 0), 2);
    assert_eq!(line(b"0000", &mut [0; 2]), Ok(2));
    assert_eq!(line(b"", &mut []), Ok(0));
}
