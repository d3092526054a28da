//! Document 02, §8: "While running, command 2 first tests decoding's refusals, then 13 for a cost above 510, or a
//! column without a 0, in the cost buffer's used part, then, if t is not 0, 16 for each stored record. Entering 4
//! changes no buffer and sets byte 3 to 0."

mod board;

use board::{Board, CODE, FOUND_LATER};
use reference_decoder::sample::{self, Generator, Size, Style};
use reference_decoder::{code_line, record};

/// A board that is running with t = 0.
fn loaded() -> Board {
    let mut board = Board::of(CODE, FOUND_LATER);
    board.load();
    assert_eq!(board.registers(), [1, 0, 0, 0, 0]);
    board
}

/// The same with t = 2: its record is that of the first iteration.
fn later() -> Board {
    let mut board = loaded();
    board.iterate();
    board.set_registers([1, 0, 2, 0, 0]);
    board
}

/// The number by which command 2 is refused on a changed board; 0 where it is not. A refused one changes no
/// buffer and leaves byte 3 at 0.
fn refused(board: &Board, change: impl FnOnce(&mut Board)) -> u8 {
    let mut board = board.clone();
    change(&mut board);
    let mut after = board.clone();
    after.iterate();
    let [state, refusal, t, mask, pending] = after.registers();
    assert_eq!((state == 4, pending & 2 == 2), (refusal != 0, refusal != 0));
    assert_eq!(mask, 0);
    if refusal != 0 {
        assert_eq!((t, after.buffers), (0, board.buffers));
    }
    refusal
}

fn lose_zero_of_frame(board: &mut Board) {
    board.frame[1] = 1;
}

/// Takes one element off the buffer with this place among the parameters.
fn shorten(board: &mut Board, place: usize) {
    let buffers = &mut board.buffers;
    match place {
        0 => buffers.symbols.truncate(2),
        1 => buffers.costs.truncate(11),
        2 => buffers.store.truncate(17),
        _ => buffers.margins.truncate(2),
    }
}

/// Above 510 in the last cost.
fn raise_cost(board: &mut Board) {
    board.buffers.costs[11] = 511;
}

/// A shift that is not below q.
fn damage_record(board: &mut Board) {
    board.buffers.store[2] = 4;
}

#[test]
fn an_accepted_board_is_not_refused() {
    for board in [loaded(), later()] {
        assert_eq!(refused(&board, |_| ()), 0);
    }
}

#[test]
fn the_codes_refusals_come_first() {
    for board in [loaded(), later()] {
        for (place, value, number) in [
            (0, 1, 6),
            (2, 0, 7),
            (3, 0, 7),
            (4, 17, 8),
            (5, 0, 8),
            (6, 1, 9),
            (8, 3, 10),
            (9, 0, 11),
            (9, 4, 11),
        ] {
            let number_of = |also: fn(&mut Board)| {
                refused(&board, |board| {
                    board.code[place] = value;
                    also(board);
                })
            };
            assert_eq!(number_of(|_| ()), number);
            assert_eq!(number_of(|board| board.frame.clear()), number);
            assert_eq!(number_of(raise_cost), number);
            assert_eq!(number_of(damage_record), number);
        }
        assert_eq!(refused(&board, |board| board.code.push(0)), 5);
        assert_eq!(refused(&board, |board| board.code.clear()), 5);
    }
}

/// 12 of the frame, 13 of the frame, 2, 3, 4, 19, 13 of the costs, 16: each with all that come after it.
#[test]
fn each_comes_before_the_ones_after_it() {
    type Change = fn(&mut Board);
    let changes: [(u8, Change); 8] = [
        (12, |board| board.frame.push(0)),
        (13, lose_zero_of_frame),
        (2, |board| shorten(board, 0)),
        (3, |board| shorten(board, 1)),
        (4, |board| shorten(board, 2)),
        (19, |board| shorten(board, 3)),
        (13, |board| board.buffers.costs[0] = 511),
        (16, damage_record),
    ];
    for (place, (number, change)) in changes.iter().enumerate() {
        assert_eq!(refused(&later(), change), *number);
        for (_, other) in &changes[place + 1..] {
            let both = |board: &mut Board| {
                other(board);
                change(board);
            };
            assert_eq!(refused(&later(), both), *number);
        }
        let all = |board: &mut Board| {
            let later = changes[place..].iter().rev();
            later.for_each(|(_, change)| change(board));
        };
        assert_eq!(refused(&later(), all), *number);
    }
}

/// "13 for a cost above 510, or a column without a 0, in the cost buffer's used part"
#[test]
fn costs_of_13() {
    for board in [loaded(), later()] {
        for place in 0..12 {
            let with = |cost| {
                refused(&board, |board| {
                    let costs = &mut board.buffers.costs;
                    costs.fill(0);
                    costs[place] = cost;
                })
            };
            assert_eq!([0, 1, 255, 256, 509, 510].map(with), [0; 6]);
            assert_eq!([511, 512, 766, 0x8000, 0xFFFF].map(with), [13; 5]);
        }
        for column in 0..3 {
            let without_zero = |board: &mut Board| {
                let costs = &mut board.buffers.costs[4 * column..][..4];
                costs.iter_mut().for_each(|cost| *cost = (*cost).max(1));
            };
            assert_eq!(refused(&board, without_zero), 13);
        }
        // Past the used part every number is accepted.
        let longer = |board: &mut Board| board.buffers.costs.extend([0xFFFF; 9]);
        assert_eq!(refused(&board, longer), 0);
    }
}

/// "if t is not 0, 16 for each stored record"
#[test]
fn records_of_16() {
    for (place, value) in [(0, 4), (2, 255), (4, 3), (5, 4), (6, 0), (7, 1), (16, 2)] {
        let damage = |board: &mut Board| board.buffers.store[place] = value;
        assert_eq!(refused(&later(), damage), 16, "byte {place}");
        assert_eq!(refused(&loaded(), damage), 0, "byte {place}");
        for t in [1, 3, 254] {
            let with_t = |board: &mut Board| {
                damage(board);
                board.window.iterations = t;
            };
            assert_eq!(refused(&later(), with_t), 16);
        }
    }
    // Past the used part every byte is accepted.
    let longer = |board: &mut Board| board.buffers.store.extend([0xFF; 9]);
    assert_eq!(refused(&later(), longer), 0);
}

/// A record of accepted form is gone on from even if no check wrote it, and each of several is tested.
#[test]
fn each_stored_record_is_tested() {
    let mut generator = Generator::new(81);
    let (mut accepted, mut damaged) = (0, 0);
    for _ in 0..2_000 {
        let sample = sample::code(&mut generator, &Size::SMALL);
        let code = code_line(&sample.line).unwrap();
        let frame = sample::frame(&mut generator, &code, Style::Uniform);
        let mut board = Board::new(&sample.line, &frame);
        board.load();
        board.set_registers([1, 0, 7, 0, 0]);
        let degrees = code.checks.iter().map(|check| check.weights.len());
        let records = degrees.clone().map(|degree| {
            let record = sample::record(&mut generator, code.first, degree);
            let other = sample::damaged_record(&mut generator, code.rule(), degree, &record);
            match other.len() == record.len() && generator.once_in(4) {
                true => other,
                false => record,
            }
        });
        let records: Vec<Vec<u8>> = records.collect();
        let mut pairs = degrees.zip(&records);
        let all =
            pairs.all(|(degree, record)| record::has_accepted_form(code.rule(), degree, record));
        board.buffers.store = records.concat();
        assert_eq!(refused(&board, |_| ()), if all { 0 } else { 16 });
        *(if all { &mut accepted } else { &mut damaged }) += 1;
    }
    assert!(accepted > 500 && damaged > 500, "{accepted} {damaged}");
}

/// A load has decoding's refusals alone: it reads neither the cost buffer nor the store.
#[test]
fn a_load_takes_every_content() {
    let mut board = later();
    board.buffers.costs.fill(0xFFFF);
    board.buffers.store.fill(0xFF);
    board.load();
    assert_eq!(board.registers(), [1, 0, 0, 0, 0]);
    assert!(board.buffers.store.iter().all(|&byte| byte == 0xFF));
    for place in 0..4 {
        let mut board = later();
        shorten(&mut board, place);
        let before = board.buffers.clone();
        board.load();
        let number = [2, 3, 4, 19][place];
        assert_eq!(board.registers(), [4, number, 0, 0, 2]);
        assert_eq!(board.buffers, before);
    }
}
