//! `line` and `decode` on the documents' own values and on inputs that no caller means. The comparison
//! with the reference decoder is in the package `compare`.

use petsivola::{decode, lengths, line, Edition, Outcome, Refusal, Rule, MOST_MARGIN};

const CODE: [u8; 16] = [2, 0, 3, 1, 16, 1, 3, 0, 0, 1, 0, 1, 1, 0, 2, 1];
const FRAME: [u8; 12] = [5, 0, 9, 7, 0, 4, 8, 3, 0, 6, 2, 10];

/// A code of five columns under two checks of degree 4, g = 8, I = 3, without its first byte.
const TWO_CHECKS: [u8; 31] = [
    0, 5, 2, 8, 3, 4, 0, 0, 2, 0, 1, 4, 0, 3, 7, 0, 4, 2, 4, 0, 0, 5, 0, 2, 1, 0, 3, 5, 0, 4, 4,
];

/// The buffers of a decoding, full of A5.
#[derive(Clone, Debug, PartialEq)]
struct Buffers {
    symbols: Vec<u8>,
    costs: Vec<u16>,
    store: Vec<u8>,
    margins: Vec<u16>,
}

impl Buffers {
    fn new([symbols, costs, store, margins]: [usize; 4]) -> Buffers {
        Buffers {
            symbols: vec![0xA5; symbols],
            costs: vec![0xA5A5; costs],
            store: vec![0xA5; store],
            margins: vec![0xA5A5; margins],
        }
    }

    fn decode(&mut self, code: &[u8], frame: &[u8]) -> Result<Outcome, Refusal> {
        let (symbols, costs) = (&mut self.symbols, &mut self.costs);
        let (store, margins) = (&mut self.store, &mut self.margins);
        decode(code, frame, symbols, costs, store, margins)
    }
}

#[test]
fn line_reads_two_digits_a_byte() {
    let mut bytes = [0xA5; 3];
    assert_eq!(line(b"0AFF", &mut bytes), Ok(2));
    assert_eq!(bytes, [0x0A, 0xFF, 0xA5]);
    assert_eq!(line(b"0aFF", &mut bytes), Err(Refusal::Digits));
    assert_eq!(line(b"0AF", &mut bytes), Err(Refusal::Digits));
    assert_eq!(line(b"0AFF", &mut bytes[..1]), Err(Refusal::ShortBuffer));
    let long = [b'0'; lengths::MOST_LINE + 1];
    assert_eq!(line(&long, &mut bytes), Err(Refusal::LongLine));
    assert_eq!(bytes, [0x0A, 0xFF, 0xA5]);
}

#[test]
fn decode_decodes_the_example() {
    let mut buffers = Buffers::new([4, 13, 19, 4]);
    assert_eq!(buffers.decode(&CODE, &FRAME), Ok(Outcome::Found(1)));
    assert_eq!(buffers.symbols, [1, 1, 0, 0xA5]);
    let costs = [1, 0, 7, 6, 1, 0, 11, 1, 0, 2, 1, 13, 0xA5A5];
    assert_eq!(buffers.costs, costs);
    assert_eq!(buffers.margins, [1, 1, 1, 0xA5A5]);
    // "Column 0 as 5 0 9 7 instead: shifts 000101, the rest equal" to 040105FF00 020207FF00
    // 030107FF00.
    let record = [0, 1, 1, 4, 1, 5, 255, 0, 2, 2, 7, 255, 0, 3, 1, 7, 255, 0];
    assert_eq!(buffers.store[..18], record);
    assert_eq!(buffers.store[18], 0xA5);
    assert_eq!(lengths::frame(2, 3), Some(12));
    assert_eq!(lengths::store(2, 1, 3), Some(18));
}

/// Document 02, §1: two checks on two columns each, with weights 1 1 and 1 3.
#[test]
fn decode_with_checks_on_two_columns() {
    let code = [2, 0, 3, 2, 16, 2, 2, 0, 0, 1, 0, 1, 1, 2, 0, 1, 1, 0, 2, 3];
    let frame = [0, 5, 7, 9, 4, 0, 8, 3, 6, 2, 0, 10];
    let mut buffers = Buffers::new([4, 13, 35, 4]);
    assert_eq!(buffers.decode(&code, &frame), Ok(Outcome::Found(2)));
    assert_eq!(buffers.symbols, [1, 1, 2, 0xA5]);
    let costs = [5, 0, 20, 9, 5, 0, 20, 9, 5, 9, 0, 20, 0xA5A5];
    assert_eq!(buffers.costs, costs);
    assert_eq!(buffers.margins, [5, 5, 5, 0xA5A5]);
    let first = [1, 0, 5, 0, 10, 255, 0, 5, 1, 7, 255, 0, 9, 0, 18, 255, 0];
    let second = [1, 0, 1, 0, 6, 255, 0, 2, 1, 11, 255, 0, 8, 0, 10, 255, 0];
    assert_eq!(buffers.store[..34], [first, second].concat());
    assert_eq!(buffers.store[34], 0xA5);
    assert_eq!(lengths::store(2, 2, 4), Some(34));
}

/// The least code there is: N = 2, and one check on both columns. With N = 1 no check fits.
#[test]
fn decode_with_two_columns() {
    let frame = [0, 5, 7, 9, 4, 0, 8, 3];
    let mut buffers = Buffers::new([3, 9, 18, 3]);
    let mut answer = |n: u8, frame: &[u8]| {
        let code = [2, 0, n, 1, 16, 3, 2, 0, 0, 1, 0, 1, 1];
        buffers.decode(&code, frame)
    };
    assert_eq!(answer(1, &frame[..4]), Err(Refusal::Column));
    assert_eq!(answer(2, &frame), Ok(Outcome::Found(1)));
    assert_eq!(buffers.symbols, [0, 0, 0xA5]);
    assert_eq!(buffers.costs, [0, 1, 11, 8, 0, 1, 11, 8, 0xA5A5]);
    assert_eq!(buffers.margins, [1, 1, 0xA5A5]);
    let record = [1, 0, 4, 1, 5, 255, 0, 3, 1, 7, 255, 0, 8, 1, 9, 255, 0];
    assert_eq!(buffers.store[..17], record);
    assert_eq!(buffers.store[17], 0xA5);
}

/// Document 02, §3: a frame under two checks with k = 2 and with k = 3, which saves it. The values come from
/// a separate calculation.
#[test]
fn decode_with_three_deviations() {
    let frame = [
        0, 32, 233, 178, 178, 19, 153, 169, 143, 17, 26, 158, 0, 243, 237, 187, 187, 0, 179, 141,
        179, 199, 13, 186, 14, 0, 157, 84, 168, 247, 202, 115, 80, 30, 144, 91, 233, 209, 0, 224,
    ];
    let answer = |first: u8, room: usize| {
        let mut buffers = Buffers::new([5, 40, room, 5]);
        let code = [&[first], &TWO_CHECKS[..]].concat();
        let outcome = buffers.decode(&code, &frame)?;
        Ok((outcome, buffers))
    };
    let (two, three) = (78, 106);
    assert_eq!(lengths::store(0x03, 2, 8), Some(two));
    assert_eq!(lengths::store(0x23, 2, 8), Some(three));
    let (outcome, buffers) = answer(0x03, two).expect("an accepted frame");
    assert_eq!(outcome, Outcome::NotFound(3));
    assert_eq!(buffers.symbols, [5, 1, 6, 0, 1]);
    assert_eq!(buffers.margins, [15, 0, 6, 1, 8]);
    assert_eq!(buffers.store[..4], [6, 0, 1, 1]);
    let (outcome, buffers) = answer(0x23, three).expect("an accepted frame");
    assert_eq!(outcome, Outcome::Found(2));
    assert_eq!(buffers.symbols, [5, 1, 6, 1, 1]);
    assert_eq!(buffers.margins, [33, 5, 7, 37, 24]);
    assert_eq!(buffers.store[..4], [3, 5, 4, 1]);
    assert_eq!(answer(0x23, three - 1), Err(Refusal::ShortStore));
}

/// Document 02, §5: a frame that the sum loses and the greatest finds with either k. The values come from a
/// separate calculation.
#[test]
fn decode_of_the_min_max_edition() {
    let frame = [
        14, 99, 93, 178, 0, 84, 79, 164, 0, 89, 23, 112, 22, 112, 45, 135, 0, 131, 56, 187, 42,
        173, 98, 230, 0, 6, 35, 41, 87, 93, 123, 129, 19, 70, 0, 50, 69, 120, 50, 100,
    ];
    let answer = |deviations: u8, edition: Edition| {
        let first = Rule::new(3, deviations, edition).map_or(0, Rule::first);
        let mut buffers = Buffers::new([5, 40, lengths::store(first, 2, 8)?, 5]);
        let code = [&[first], &TWO_CHECKS[..]].concat();
        let outcome = buffers.decode(&code, &frame).ok()?;
        Some((outcome, buffers))
    };
    let (outcome, buffers) = answer(2, Edition::Sum).expect("an accepted frame");
    assert_eq!(outcome, Outcome::NotFound(3));
    assert_eq!(buffers.symbols, [4, 0, 0, 0, 2]);
    let (outcome, buffers) = answer(2, Edition::Greatest).expect("an accepted frame");
    assert_eq!(outcome, Outcome::Found(2));
    assert_eq!(buffers.symbols, [0; 5]);
    assert_eq!(buffers.margins, [5, 23, 37, 17, 3]);
    assert_eq!(buffers.store[..9], [4, 7, 7, 3, 22, 1, 24, 2, 30]);
    let (outcome, buffers) = answer(3, Edition::Greatest).expect("an accepted frame");
    assert_eq!(outcome, Outcome::Found(2));
    assert_eq!(buffers.symbols, [0; 5]);
    assert_eq!(buffers.store[..9], [4, 7, 7, 3, 22, 1, 24, 255, 0]);
}

/// "Degree 2 and 33: 9. Degree 3 and 32 pass. g 16 passes, 17 gives 8." Document 02, §1: "the bench
/// cases of degree 2 and 3 become 1 and 2".
#[test]
fn degrees_and_scales_of_the_bench_table() {
    let answer = |degree: u8, g: u8| {
        let mut code = vec![2, 0, 40, 1, g, 1, degree];
        code.extend((0..degree).flat_map(|column| [0, column, 1]));
        Buffers::new([40, 160, 47, 40]).decode(&code, &[0; 160])
    };
    assert_eq!(answer(0, 1), Err(Refusal::Degree));
    assert_eq!(answer(1, 1), Err(Refusal::Degree));
    assert_eq!(answer(2, 1), Ok(Outcome::Found(0)));
    assert_eq!(answer(3, 1), Ok(Outcome::Found(0)));
    assert_eq!(answer(32, 1), Ok(Outcome::Found(0)));
    assert_eq!(answer(33, 1), Err(Refusal::Degree));
    assert_eq!(answer(2, 16), Ok(Outcome::Found(0)));
    assert_eq!(answer(2, 17), Err(Refusal::ScaleOrLimit));
}

/// Document 02, §6: "a tie has margin 0". Columns 2 and 3 are as sure as columns can be, and the check on columns
/// 0 and 1 makes both of them tie.
#[test]
fn the_least_and_the_greatest_margin() {
    let code = [2, 0, 4, 2, 16, 1, 2, 0, 0, 1, 0, 1, 1, 2, 0, 2, 1, 0, 3, 1];
    let mut frame = [255; 16];
    for place in [0, 5, 10, 14] {
        frame[place] = 0;
    }
    let mut buffers = Buffers::new([4, 16, 34, 4]);
    assert_eq!(buffers.decode(&code, &frame), Ok(Outcome::Found(1)));
    assert_eq!(buffers.symbols, [0, 0, 2, 2]);
    assert_eq!(buffers.margins, [0, 0, MOST_MARGIN, MOST_MARGIN]);
}

/// 2, 3, 4, 19, each with all that come after it.
#[test]
fn a_refused_decoding_writes_nothing() {
    for (lengths, refusal) in [
        ([2, 11, 17, 2], Refusal::ShortBuffer),
        ([3, 11, 17, 2], Refusal::ShortCosts),
        ([3, 12, 17, 2], Refusal::ShortStore),
        ([3, 12, 18, 2], Refusal::ShortMargins),
        ([9, 99, 99, 0], Refusal::ShortMargins),
    ] {
        let before = Buffers::new(lengths);
        let mut buffers = before.clone();
        assert_eq!(buffers.decode(&CODE, &FRAME), Err(refusal));
        assert_eq!(buffers, before);
    }
}

#[test]
fn empty_slices_are_answered() {
    assert_eq!(line(&[], &mut []), Ok(0));
    let answer = decode(&[], &[], &mut [], &mut [], &mut [], &mut []);
    assert_eq!(answer, Err(Refusal::CodeBytes));
}
