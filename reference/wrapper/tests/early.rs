//! `decode_early` on values of a separate calculation, on each of its refusals and on inputs that no caller means. The
//! comparison with the reference decoder is in the package `compare`.

use petsivola::{decode, decode_early, lengths, Outcome, Refusal, Stopped};

/// p = 2, N = 3, M = 1, g = 16, I = 1: one check on all columns with weights 1.
const CODE: [u8; 16] = [2, 0, 3, 1, 16, 1, 3, 0, 0, 1, 0, 1, 1, 0, 2, 1];
const FRAME: [u8; 12] = [5, 0, 9, 7, 0, 4, 8, 3, 0, 6, 2, 10];

/// Four checks of degree 3 on six columns, p = 2, g = 12, I = 8.
const FOUR_CHECKS: [u8; 46] = [
    2, 0, 6, 4, 12, 8, 3, 0, 0, 1, 0, 1, 2, 0, 3, 1, 3, 0, 1, 1, 0, 2, 3, 0, 4, 1, 3, 0, 0, 2, 0,
    2, 1, 0, 5, 1, 3, 0, 3, 1, 0, 4, 2, 0, 5, 3,
];
/// What was sent under them.
const SENT: [u8; 6] = [2, 2, 0, 1, 2, 3];
const ONE_WRONG: [u8; 24] = [
    0, 11, 2, 12, 14, 8, 0, 10, 0, 9, 13, 12, 7, 0, 13, 10, 11, 10, 0, 8, 8, 7, 10, 0,
];
const THREE_WRONG: [u8; 24] = [
    0, 9, 3, 11, 4, 15, 2, 0, 4, 8, 0, 13, 6, 0, 13, 10, 11, 10, 0, 8, 8, 7, 10, 0,
];

/// The buffers of a decoding, full of A5.
#[derive(Clone, Debug, PartialEq)]
struct Buffers {
    symbols: Vec<u8>,
    costs: Vec<u16>,
    store: Vec<u8>,
    margins: Vec<u16>,
}

impl Buffers {
    fn new([symbols, costs, store, margins]: [usize; 4]) -> Buffers {
        Buffers {
            symbols: vec![0xA5; symbols],
            costs: vec![0xA5A5; costs],
            store: vec![0xA5; store],
            margins: vec![0xA5A5; margins],
        }
    }

    fn stop(&mut self, code: &[u8], frame: &[u8]) -> Result<Stopped, Refusal> {
        let (symbols, costs) = (&mut self.symbols, &mut self.costs);
        let (store, margins) = (&mut self.store, &mut self.margins);
        decode_early(code, frame, symbols, costs, store, margins)
    }

    fn decode(&mut self, code: &[u8], frame: &[u8]) -> Result<Outcome, Refusal> {
        let (symbols, costs) = (&mut self.symbols, &mut self.costs);
        let (store, margins) = (&mut self.store, &mut self.margins);
        decode(code, frame, symbols, costs, store, margins)
    }
}

/// With one check every update is an iteration: all is as `decode` leaves it.
#[test]
fn the_example_of_document_01() {
    let mut buffers = Buffers::new([4, 13, 19, 4]);
    let mut decoded = buffers.clone();
    assert_eq!(decoded.decode(&CODE, &FRAME), Ok(Outcome::Found(1)));
    assert_eq!(buffers.stop(&CODE, &FRAME), Ok(Stopped::Found(1)));
    assert_eq!(buffers, decoded);
    assert_eq!(buffers.symbols, [1, 1, 0, 0xA5]);
}

/// "tested at the start": with 0 updates the store is untouched.
#[test]
fn found_at_the_start() {
    let frame = [0, 5, 9, 7, 0, 4, 8, 3, 0, 6, 2, 10];
    let mut buffers = Buffers::new([4, 13, 19, 4]);
    assert_eq!(buffers.stop(&CODE, &frame), Ok(Stopped::Found(0)));
    assert_eq!(buffers.symbols, [0, 0, 0, 0xA5]);
    assert_eq!(buffers.costs[..12], frame.map(u16::from));
    assert_eq!(
        (buffers.costs[12], &buffers.store),
        (0xA5A5, &vec![0xA5; 19])
    );
    assert_eq!(buffers.margins, [5, 3, 2, 0xA5A5]);
}

/// One update of four checks: their other places keep the old bytes.
#[test]
fn found_inside_the_first_iteration() {
    let mut buffers = Buffers::new([7, 25, 73, 7]);
    assert_eq!(lengths::store(2, 4, 12), Some(72));
    let stopped = buffers.stop(&FOUR_CHECKS, &ONE_WRONG);
    assert_eq!(stopped, Ok(Stopped::Found(1)));
    assert_eq!(
        (&buffers.symbols[..6], buffers.symbols[6]),
        (&SENT[..], 0xA5)
    );
    let costs = [
        5, 18, 0, 15, 18, 13, 0, 9, 0, 9, 13, 12, 13, 0, 18, 9, 11, 10, 0, 8, 8, 7, 10, 0, 0xA5A5,
    ];
    assert_eq!(buffers.costs, costs);
    assert_eq!(buffers.margins, [5, 9, 9, 9, 8, 7, 0xA5A5]);
    let record = [2, 1, 3, 7, 2, 8, 255, 0, 2, 0, 10, 255, 0, 9, 0, 13, 2, 10];
    assert_eq!(buffers.store[..18], record);
    assert_eq!(buffers.store[18..], [0xA5; 55]);
}

/// Nine updates, where three iterations make twelve: the first record is of the third iteration, the others are of the
/// second.
#[test]
fn found_inside_a_later_iteration() {
    let mut buffers = Buffers::new([6, 24, 72, 6]);
    let outcome = buffers.clone().decode(&FOUR_CHECKS, &THREE_WRONG);
    assert_eq!(outcome, Ok(Outcome::Found(3)));
    let stopped = buffers.stop(&FOUR_CHECKS, &THREE_WRONG);
    assert_eq!(stopped, Ok(Stopped::Found(9)));
    assert_eq!(buffers.symbols, SENT);
    assert_eq!(buffers.margins, [7, 4, 5, 11, 10, 9]);
    let first = [0, 3, 3, 5, 0, 8, 255, 0, 2, 1, 8, 255, 0, 7, 0, 10, 1, 14];
    let second = [2, 1, 3, 0, 1, 2, 255, 0, 6, 1, 12, 255, 0, 6, 1, 9, 255, 0];
    let third = [
        1, 3, 2, 11, 0, 19, 1, 19, 5, 1, 13, 255, 0, 6, 0, 16, 255, 0,
    ];
    let fourth = [1, 3, 2, 3, 2, 12, 255, 0, 3, 2, 8, 255, 0, 2, 2, 15, 255, 0];
    assert_eq!(buffers.store, [first, second, third, fourth].concat());
}

/// Two checks that only the word 0 satisfies, g = 8. The test holds after three updates, and after no iteration.
#[test]
fn a_frame_that_decode_does_not_find() {
    let frame = [0, 1, 0, 2, 2, 2, 1, 0];
    for limit in [2, 255] {
        let code = [
            2, 0, 2, 2, 8, limit, 2, 0, 0, 1, 0, 1, 1, 2, 0, 0, 1, 0, 1, 2,
        ];
        let mut buffers = Buffers::new([2, 8, 34, 2]);
        let outcome = buffers.clone().decode(&code, &frame);
        assert_eq!(outcome, Ok(Outcome::NotFound(limit)));
        assert_eq!(buffers.stop(&code, &frame), Ok(Stopped::Found(3)));
        assert_eq!(
            (&buffers.symbols, &buffers.margins),
            (&vec![0; 2], &vec![0; 2])
        );
        assert_eq!(buffers.costs, [0, 1, 0, 2, 0, 0, 0, 0]);
        let first = [3, 0, 1, 255, 0, 255, 0, 0, 0, 1, 255, 0, 1, 1, 2, 255, 0];
        let second = [3, 2, 1, 1, 2, 255, 0, 0, 1, 1, 255, 0, 1, 1, 2, 255, 0];
        assert_eq!(buffers.store, [first, second].concat());
    }
}

/// The word that satisfies every check after three updates is not the one that does after four.
#[test]
fn a_frame_that_decode_finds_as_another_word() {
    let code = [
        2, 0, 3, 2, 16, 3, 3, 0, 0, 3, 0, 1, 3, 0, 2, 1, 2, 0, 1, 2, 0, 2, 3,
    ];
    let frame = [1, 0, 0, 0, 0, 0, 2, 2, 1, 2, 0, 3];
    let mut buffers = Buffers::new([3, 12, 35, 3]);
    let mut decoded = buffers.clone();
    assert_eq!(decoded.decode(&code, &frame), Ok(Outcome::Found(2)));
    assert_eq!(decoded.symbols, [0, 3, 2]);
    assert_eq!(buffers.stop(&code, &frame), Ok(Stopped::Found(3)));
    assert_eq!(buffers.symbols, [0, 0, 0]);
}

/// One frame by both k and both editions: the last of these, k = 3 and the greatest, is not found by `decode`.
#[test]
fn every_rule() {
    let rest = [
        0, 5, 2, 8, 3, 4, 0, 0, 2, 0, 1, 4, 0, 3, 7, 0, 4, 2, 4, 0, 0, 5, 0, 2, 1, 0, 3, 5, 0, 4, 4,
    ];
    let frame = [
        21, 81, 0, 215, 38, 242, 48, 8, 0, 13, 235, 129, 46, 26, 127, 53, 0, 177, 241, 24, 4, 35,
        155, 22, 20, 0, 94, 68, 236, 255, 223, 140, 45, 50, 76, 127, 167, 0, 254, 66,
    ];
    for (first, outcome, updates, margins) in [
        (0x03, Outcome::Found(3), 5, [7, 1, 8, 4, 24]),
        (0x13, Outcome::Found(1), 2, [1, 1, 9, 0, 29]),
        (0x23, Outcome::Found(2), 3, [5, 1, 2, 1, 24]),
        (0x33, Outcome::NotFound(3), 3, [5, 4, 9, 0, 39]),
    ] {
        let code = [&[first], &rest[..]].concat();
        let store = lengths::store(first, 2, 8).expect("an accepted first byte");
        let mut buffers = Buffers::new([5, 40, store, 5]);
        assert_eq!(buffers.clone().decode(&code, &frame), Ok(outcome));
        assert_eq!(buffers.stop(&code, &frame), Ok(Stopped::Found(updates)));
        assert_eq!(buffers.symbols, [7, 1, 4, 0, 5]);
        assert_eq!(buffers.margins, margins);
    }
}

/// "at most M times I": costs below 16 are scaled to 0 with g = 1, so that no update of a check on two columns changes a
/// decision.
#[test]
fn not_found_after_every_update() {
    let frame = [15, 0, 15, 15, 15, 0, 15, 15];
    for (checks, limit, updates) in [(1, 1, 1), (2, 3, 6), (3, 255, 765), (128, 255, 32_640)] {
        let mut code = vec![2, 0, 2, checks, 1, limit];
        for _ in 0..checks {
            code.extend([2, 0, 0, 1, 0, 1, 2]);
        }
        let mut buffers = Buffers::new([2, 8, 17 * usize::from(checks), 2]);
        let stopped = buffers.stop(&code, &frame);
        assert_eq!(stopped, Ok(Stopped::NotFound(updates)));
        assert_eq!(buffers.symbols, [1, 1]);
        assert_eq!(buffers.costs, frame.map(u16::from));
    }
}

/// The answer to a frame, and that a refused call has changed nothing.
fn answer(code: &[u8], frame: &[u8], lengths: [usize; 4]) -> Result<Stopped, Refusal> {
    let before = Buffers::new(lengths);
    let mut after = before.clone();
    let answer = after.stop(code, frame);
    if answer.is_err() {
        assert_eq!(after, before);
    }
    answer
}

/// Each with all that come after it.
#[test]
fn the_code_lines_refusals_come_first() {
    let with = |place: usize, byte: u8| {
        let mut code = CODE;
        code[place] = byte;
        answer(&code, &[], [0; 4])
    };
    assert_eq!(with(0, 7), Err(Refusal::FieldSize));
    assert_eq!(with(3, 0), Err(Refusal::ColumnsOrChecks));
    assert_eq!(with(4, 17), Err(Refusal::ScaleOrLimit));
    assert_eq!(with(5, 0), Err(Refusal::ScaleOrLimit));
    assert_eq!(with(6, 1), Err(Refusal::Degree));
    assert_eq!(with(14, 3), Err(Refusal::Column));
    assert_eq!(with(15, 4), Err(Refusal::Weight));
    assert_eq!(answer(&CODE[..15], &[], [0; 4]), Err(Refusal::CodeBytes));
    assert_eq!(with(15, 1), Err(Refusal::CostCount));
}

#[test]
fn the_frame_then_the_buffers() {
    let mut no_zero = FRAME;
    no_zero[1] = 1;
    for (lengths, expected) in [
        ([3, 12, 18, 3], Ok(Stopped::Found(1))),
        ([2, 11, 17, 2], Err(Refusal::ShortBuffer)),
        ([3, 11, 17, 2], Err(Refusal::ShortCosts)),
        ([3, 12, 17, 2], Err(Refusal::ShortStore)),
        ([3, 12, 18, 2], Err(Refusal::ShortMargins)),
        ([9, 99, 99, 0], Err(Refusal::ShortMargins)),
    ] {
        let answer = |frame: &[u8]| answer(&CODE, frame, lengths);
        assert_eq!(answer(&no_zero[..11]), Err(Refusal::CostCount));
        assert_eq!(answer(&[1; 13]), Err(Refusal::CostCount));
        assert_eq!(answer(&no_zero), Err(Refusal::NoZeroCost));
        assert_eq!(answer(&FRAME), expected);
    }
}

/// The whole store is needed, though one place of it would be filled, or none.
#[test]
fn a_store_too_short_is_refused_wherever_it_stops() {
    for length in [0, 18, 71] {
        let lengths = [6, 24, length, 6];
        let refused = answer(&FOUR_CHECKS, &ONE_WRONG, lengths);
        assert_eq!(refused, Err(Refusal::ShortStore));
    }
    let at_once = [0; 12];
    let refused = answer(&CODE, &at_once, [3, 12, 17, 3]);
    assert_eq!(refused, Err(Refusal::ShortStore));
    assert_eq!(
        answer(&CODE, &at_once, [3, 12, 18, 3]),
        Ok(Stopped::Found(0))
    );
}

#[test]
fn empty_slices_are_answered() {
    assert_eq!(answer(&[], &[], [0; 4]), Err(Refusal::CodeBytes));
    assert_eq!(answer(&CODE, &[], [0; 4]), Err(Refusal::CostCount));
    assert_eq!(answer(&CODE, &FRAME, [0; 4]), Err(Refusal::ShortBuffer));
}
