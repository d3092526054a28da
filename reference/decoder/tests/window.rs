//! Document 02, §8: the registers. Each command in each state, what is ignored, and what is kept.

mod board;

use board::{Board, CODE, CONTRADICTING, FOUND_AT_ONCE, FOUND_LATER, NEVER_FOUND};
use reference_decoder::sample::Buffers;

/// A frame with a column that has no 0, for three columns.
const REFUSED: &str = "05010907 00040803 0006020A";

/// A board whose window is in each state by a list of writes from idle, with pending cleared.
fn in_each_state() -> [Board; 5] {
    let idle = Board::of(CODE, FOUND_LATER);
    let mut running = idle.clone();
    running.load();
    let mut found = running.clone();
    found.iterate();
    let mut not_found = Board::of(CONTRADICTING, NEVER_FOUND);
    not_found.load();
    (0..3).for_each(|_| not_found.iterate());
    let mut refused = Board::of(CODE, REFUSED);
    refused.load();
    let mut boards = [idle, running, found, not_found, refused];
    for (state, board) in (0..).zip(&mut boards) {
        board.clear();
        assert_eq!((board.window.state, board.window.pending), (state, 0));
    }
    boards
}

/// The same window over another code and frame, in buffers of the lengths that these need.
fn moved(board: &Board, code: &str, frame: &str) -> Board {
    Board {
        window: board.window,
        ..Board::of(code, frame)
    }
}

/// "All bytes start at 0, and byte 0 always reads 0."
#[test]
fn all_bytes_start_at_0() {
    let board = Board::of(CODE, FOUND_LATER);
    assert_eq!(board.registers(), [0; 5]);
    assert!(!board.window.interrupt());
}

/// "byte 0 always reads 0", "a read past byte 5 gives 0".
#[test]
fn reads() {
    let mut board = Board::of(CODE, FOUND_LATER);
    board.set_registers([11, 12, 13, 14, 15]);
    let read: Vec<u8> = (0..=5).map(|address| board.window.read(address)).collect();
    assert_eq!(read, [0, 11, 12, 13, 14, 15]);
    assert!((6..=255).all(|address| board.window.read(address) == 0));
}

/// "Bit 0 of pending is set on entering 2 or 3, bit 1 on entering 4".
#[test]
fn loads_and_iterations_of_the_examples() {
    let mut board = Board::of(CODE, FOUND_LATER);
    board.load();
    assert_eq!(board.registers(), [1, 0, 0, 0, 0]);
    board.iterate();
    assert_eq!(board.registers(), [2, 0, 1, 0, 1]);
    assert_eq!(board.buffers.symbols, [1, 1, 0]);
    assert_eq!(board.buffers.margins, [1, 1, 1]);
    let costs = [1, 0, 7, 6, 1, 0, 11, 1, 0, 2, 1, 13];
    assert_eq!(board.buffers.costs, costs);

    let mut board = Board::of(CODE, FOUND_AT_ONCE);
    board.load();
    assert_eq!(board.registers(), [2, 0, 0, 0, 1]);

    let mut board = Board::of(CONTRADICTING, NEVER_FOUND);
    board.load();
    let mut seen = vec![board.registers()];
    for _ in 0..3 {
        board.iterate();
        seen.push(board.registers());
    }
    let running = |t| [1, 0, t, 0, 0];
    let expected = [running(0), running(1), running(2), [3, 0, 3, 0, 1]];
    assert_eq!(seen, expected);

    let mut board = Board::of(CODE, REFUSED);
    board.load();
    assert_eq!(board.registers(), [4, 13, 0, 0, 2]);
}

/// "After each of them that is not refused the buffers hold the decisions, margins, costs and records of that
/// moment (at t = 0 the store is untouched)."
#[test]
fn a_load_leaves_the_frame_and_its_decisions() {
    let mut board = Board::of(CODE, FOUND_LATER);
    let before = board.clone();
    board.load();
    assert_eq!(board.buffers.symbols, [1, 0, 0]);
    assert_eq!(board.buffers.margins, [5, 3, 2]);
    let frame = before.frame.iter().copied().map(u16::from);
    assert!(board.buffers.costs.iter().copied().eq(frame));
    assert_eq!(board.buffers.store, before.buffers.store);
}

/// "A load from any state starts afresh with byte 3 at 0; mask and pending are kept." A refusal number goes, and
/// "by a load even from that same state" a bit is set again.
#[test]
fn a_load_from_each_state() {
    for board in in_each_state() {
        for (frame, state, refusal, bit) in [
            (FOUND_LATER, 1, 0, 0),
            (FOUND_AT_ONCE, 2, 0, 1),
            (REFUSED, 4, 13, 2),
        ] {
            for [mask, pending] in [[0, 0], [0xF5, 0], [3, 0xA8], [0, 1], [0, 2]] {
                let mut board = moved(&board, CODE, frame);
                (board.window.mask, board.window.pending) = (mask, pending);
                board.load();
                let expected = [state, refusal, 0, mask, pending | bit];
                assert_eq!(board.registers(), expected);
                let interrupt = mask & (pending | bit) != 0;
                assert_eq!(board.window.interrupt(), interrupt);
            }
        }
    }
}

/// "2 runs one iteration if running": in the other states, and in those that there are not, nothing changes.
#[test]
fn an_iteration_while_not_running_does_nothing() {
    let mut boards = Vec::from(in_each_state());
    boards.remove(1);
    for state in 5..=255 {
        let mut board = boards[1].clone();
        board.window.state = state;
        boards.push(board);
    }
    for mut board in boards {
        let before = board.clone();
        board.iterate();
        assert_eq!(board, before);
    }
}

/// "2 with byte 3 at 255" does nothing, also where it would be refused; at 254 it is the last that runs.
#[test]
fn an_iteration_with_byte_3_at_255_does_nothing() {
    let mut board = Board::of(CONTRADICTING, NEVER_FOUND);
    board.load();
    board.iterate();
    board.set_registers([1, 0, 254, 0, 0]);
    board.iterate();
    assert_eq!(board.registers(), [3, 0, 255, 0, 1]);
    board.set_registers([1, 0, 255, 0, 0]);
    for code in [board.code.clone(), vec![]] {
        board.code = code;
        let before = board.clone();
        board.iterate();
        assert_eq!(board, before);
    }
}

/// "3 clears pending": nothing else, and from every state.
#[test]
fn clearing_pending() {
    for mut board in in_each_state() {
        (board.window.mask, board.window.pending) = (0xFF, 0xFF);
        assert!(board.window.interrupt());
        let mut expected = board.clone();
        expected.window.pending = 0;
        board.clear();
        assert_eq!(board, expected);
        assert!(!board.window.interrupt());
    }
}

/// "other values ... do nothing", "A write outside bytes 0 and 4 is ignored".
#[test]
fn other_writes_are_ignored() {
    for before in in_each_state() {
        for address in 0..=255 {
            for value in 0..=255 {
                if address == 4 || (address == 0 && (1..=3).contains(&value)) {
                    continue;
                }
                let mut board = before.clone();
                board.write(address, value);
                assert_eq!(board, before, "address {address}, value {value}");
            }
        }
    }
}

/// A write to byte 4 takes every bit of the value and changes nothing else.
#[test]
fn the_mask() {
    for before in in_each_state() {
        for mask in 0..=255 {
            let mut board = before.clone();
            board.mask(mask);
            let mut expected = before.clone();
            expected.window.mask = mask;
            assert_eq!(board, expected);
        }
    }
}

/// "The interrupt is raised when mask and pending share a bit."
#[test]
fn the_interrupt() {
    let mut board = Board::of(CODE, FOUND_LATER);
    for mask in 0..=255_u8 {
        for pending in 0..=255_u8 {
            board.set_registers([0, 0, 0, mask, pending]);
            let shared = (0..8).any(|bit| mask >> bit & 1 == 1 && pending >> bit & 1 == 1);
            assert_eq!(board.window.interrupt(), shared);
        }
    }
}

/// Iterations keep mask and pending, the bits that no write sets included, but for the bit that they set.
#[test]
fn iterations_keep_mask_and_pending() {
    let [_, running, ..] = in_each_state();
    let mut found = running.clone();
    found.set_registers([1, 77, 0, 0xC3, 0xF8]);
    found.iterate();
    assert_eq!(found.registers(), [2, 0, 1, 0xC3, 0xF9]);
    let mut refused = running;
    refused.set_registers([1, 77, 9, 0xC3, 0xF8]);
    refused.buffers = Buffers::zeroed([0; 4]);
    refused.iterate();
    assert_eq!(refused.registers(), [4, 2, 0, 0xC3, 0xFA]);
}

/// "else 3 if t is I or more", by the code that is lent with the iteration.
#[test]
fn t_may_pass_a_limit_that_is_lent_later() {
    let mut board = Board::of(CONTRADICTING, NEVER_FOUND);
    board.load();
    board.iterate();
    board.iterate();
    board.code[5] = 1;
    board.iterate();
    assert_eq!(board.registers(), [3, 0, 3, 0, 1]);
    let mut board = Board::of(CONTRADICTING, NEVER_FOUND);
    board.load();
    board.code[5] = 1;
    board.iterate();
    assert_eq!(board.registers(), [3, 0, 1, 0, 1]);
}
