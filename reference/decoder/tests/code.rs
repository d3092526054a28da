//! Document 01, "Code line as bytes", with the degrees of document 02, §1 and the first byte of §3 and §5.

use reference_decoder::sample::{self, bytes, Generator, Size};
use reference_decoder::{code_line, CheckNode, Code};

#[test]
fn the_fields_of_a_code_line() {
    let line = bytes("03 0101 02 07 FF 03 000001 000207 010003 04 000105 000206 00FF01 010004");
    assert_eq!(code_line(&line).map_err(|refusal| refusal.number()), Err(7));
    let line = bytes("03 0100 02 07 FF 03 000001 000207 00FF03 04 000105 000206 00FE01 00FF04");
    let expected = Code {
        first: 3,
        n: 256,
        m: 2,
        g: 7,
        limit: 255,
        checks: vec![
            CheckNode {
                columns: vec![0, 2, 255],
                weights: vec![1, 7, 3],
            },
            CheckNode {
                columns: vec![1, 2, 254, 255],
                weights: vec![5, 6, 1, 4],
            },
        ],
    };
    assert_eq!(expected.line(), line);
    assert_eq!(code_line(&line), Ok(expected));
}

#[test]
fn the_lengths_of_frame_and_store() {
    let line = bytes("03 0100 02 07 FF 03 000001 000207 00FF03 04 000105 000206 00FE01 00FF04");
    let code = code_line(&line).unwrap();
    assert_eq!(code.frame_length(), 2_048);
    assert_eq!(code.store_length(), 3 + 35 + 4 + 35);
    let code = Code {
        first: 0x23,
        ..code
    };
    assert_eq!(code.frame_length(), 2_048);
    assert_eq!(code.store_length(), 3 + 49 + 4 + 49);
}

/// A check has two columns or more, so that 1 is in the range of N and no line has it.
#[test]
fn the_least_number_of_columns_is_2() {
    let number = |line: &str| code_line(&bytes(line)).map_err(|refusal| refusal.number());
    assert_eq!(number("02 0001 01 10 01 02 000001 000101"), Err(10));
    assert_eq!(number("02 0001 01 10 01 01 000001"), Err(9));
    assert_eq!(number("02 0000 01 10 01 02 000001 000101"), Err(7));
    assert_eq!(number("02 0002 01 10 01 03 000001 000101 000201"), Err(10));
    let expected = Code {
        first: 2,
        n: 2,
        m: 2,
        g: 16,
        limit: 1,
        checks: vec![
            CheckNode {
                columns: vec![0, 1],
                weights: vec![1, 3],
            };
            2
        ],
    };
    let line = "02 0002 02 10 01 02 000001 000103 02 000001 000103";
    assert_eq!(number(line), Ok(expected));
}

#[test]
fn a_code_line_is_refused_by_5_when_cut_short_or_continued() {
    let mut generator = Generator::new(30);
    for _ in 0..50 {
        let line = sample::code(&mut generator, &Size::SMALL).line;
        for length in 0..line.len() {
            let cut = code_line(&line[..length]);
            assert_eq!(cut.map_err(|refusal| refusal.number()), Err(5));
        }
        let continued = [&line[..], &[3]].concat();
        assert_eq!(
            code_line(&continued).map_err(|refusal| refusal.number()),
            Err(5)
        );
    }
}

#[test]
fn exactly_1024_edges_are_accepted() {
    let mut generator = Generator::new(31);
    for size in [Size::MOST_CHECKS, Size::MOST_DEGREE] {
        let code = code_line(&sample::code(&mut generator, &size).line).unwrap();
        assert_eq!((code.edges(), code.n, code.field().p()), (1_024, 256, 6));
    }
}

/// "The line is read front to back, each field once": six bytes, a degree byte for each check and three bytes for each
/// edge, so that 3,206 bytes are the most.
#[test]
fn an_accepted_line_has_six_bytes_one_a_check_and_three_an_edge() {
    let mut generator = Generator::new(32);
    let mut longest = 0;
    for round in 0..2_000 {
        let size = match round % 50 {
            0 => Size::FULL,
            1 => Size::MOST_CHECKS,
            2 => Size::MOST_DEGREE,
            3..20 => Size::MEDIUM,
            _ => Size::SMALL,
        };
        let line = sample::code(&mut generator, &size).line;
        let damaged = sample::damaged_code(&mut generator, &line);
        for line in [line, damaged] {
            let Ok(code) = code_line(&line) else { continue };
            assert_eq!(line.len(), 6 + code.m + 3 * code.edges());
            assert_eq!(code.line(), line);
            longest = longest.max(line.len());
        }
    }
    assert_eq!(longest, 3_206);
}

/// The store's length by the edges: "d + 5(q - 1)" bytes for each record, with 1 + 2k in the place of 5.
#[test]
fn a_store_has_a_shift_an_edge_and_the_entries_of_each_check() {
    let mut generator = Generator::new(33);
    for size in [Size::SMALL, Size::MEDIUM, Size::FULL] {
        for _ in 0..50 {
            let code = code_line(&sample::code(&mut generator, &size).line).unwrap();
            let of_check = (1 + 2 * code.rule().deviations()) * (code.field().size() - 1);
            assert_eq!(code.store_length(), code.edges() + code.m * of_check);
        }
    }
    let longest = sample::code(&mut generator, &Size::MOST_CHECKS).line;
    let lengths = [0x06, 0x16, 0x26, 0x36].map(|first| {
        let line = [&[first], &longest[1..]].concat();
        code_line(&line).map(|code| code.store_length())
    });
    assert_eq!(lengths, [41_344, 41_344, 57_472, 57_472].map(Ok));
}
