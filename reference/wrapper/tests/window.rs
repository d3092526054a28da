//! The register window on the documents' own values and on registers and inputs that no caller means. The comparison
//! with the reference decoder is in the package `compare`.

use petsivola::window::{CLEAR, COMMAND, ITERATE, LOAD, MASK};
use petsivola::{decode, Lent, Outcome, Refusal, State, Window};

/// Document 01's code with an iteration limit of 3.
const CODE: [u8; 16] = [2, 0, 3, 1, 16, 3, 3, 0, 0, 1, 0, 1, 1, 0, 2, 1];
const FRAME: [u8; 12] = [5, 0, 9, 7, 0, 4, 8, 3, 0, 6, 2, 10];

/// Two checks that the word 0 alone satisfies, with g = 1 and an iteration limit of 3.
const CONTRADICTING: [u8; 20] = [2, 0, 2, 2, 1, 3, 2, 0, 0, 1, 0, 1, 1, 2, 0, 0, 1, 0, 1, 2];

/// A window and what it is lent; the buffers are full of A5.
#[derive(Clone, Debug, PartialEq)]
struct Board {
    window: Window,
    code: Vec<u8>,
    frame: Vec<u8>,
    symbols: Vec<u8>,
    costs: Vec<u16>,
    store: Vec<u8>,
    margins: Vec<u16>,
}

impl Board {
    fn new(code: &[u8], frame: &[u8], [symbols, costs, store, margins]: [usize; 4]) -> Board {
        Board {
            window: Window::IDLE,
            code: code.to_vec(),
            frame: frame.to_vec(),
            symbols: vec![0xA5; symbols],
            costs: vec![0xA5A5; costs],
            store: vec![0xA5; store],
            margins: vec![0xA5A5; margins],
        }
    }

    /// Document 01's example, each buffer one element longer than it need be.
    fn example() -> Board {
        Board::new(&CODE, &FRAME, [4, 13, 19, 4])
    }

    fn write(&mut self, address: u8, value: u8) {
        let lent = Lent {
            code: &self.code,
            frame: &self.frame,
            symbols: &mut self.symbols,
            costs: &mut self.costs,
            store: &mut self.store,
            margins: &mut self.margins,
        };
        self.window.write(address, value, lent);
    }

    /// Bytes 1 to 5 after a command.
    fn after(&mut self, command: u8) -> [u8; 5] {
        self.write(COMMAND, command);
        self.window.registers()
    }

    /// One decode call in the same buffers.
    fn decode(&mut self) -> Result<Outcome, Refusal> {
        let (symbols, costs) = (&mut self.symbols, &mut self.costs);
        let (store, margins) = (&mut self.store, &mut self.margins);
        decode(&self.code, &self.frame, symbols, costs, store, margins)
    }
}

#[test]
fn a_frame_is_found_through_the_window() {
    let mut board = Board::example();
    assert_eq!(board.after(LOAD), [1, 0, 0, 0, 0]);
    assert_eq!(board.window.state(), State::Running);
    assert_eq!(board.symbols, [1, 0, 0, 0xA5]);
    assert_eq!(board.costs[..4], [5, 0, 9, 7]);
    assert_eq!(board.margins, [5, 3, 2, 0xA5A5]);
    assert_eq!(board.store, [0xA5; 19]);
    assert_eq!(board.after(ITERATE), [2, 0, 1, 0, 1]);
    let mut decoded = Board::example();
    assert_eq!(decoded.decode(), Ok(Outcome::Found(1)));
    decoded.window = board.window;
    assert_eq!(board, decoded);
    // "2 runs one iteration if running"
    assert_eq!(board.after(ITERATE), [2, 0, 1, 0, 1]);
    assert_eq!(board, decoded);
}

#[test]
fn a_frame_is_not_found_through_the_window() {
    let frame = [255, 0, 255, 255, 255, 0, 255, 255];
    let mut board = Board::new(&CONTRADICTING, &frame, [2, 8, 34, 2]);
    let mut decoded = board.clone();
    assert_eq!(board.after(LOAD), [1, 0, 0, 0, 0]);
    assert_eq!(board.after(ITERATE), [1, 0, 1, 0, 0]);
    assert_eq!(board.after(ITERATE), [1, 0, 2, 0, 0]);
    assert_eq!(board.after(ITERATE), [3, 0, 3, 0, 1]);
    assert_eq!(board.window.state(), State::NotFound);
    assert_eq!(board.window.iterations(), 3);
    assert_eq!(decoded.decode(), Ok(Outcome::NotFound(3)));
    decoded.window = board.window;
    assert_eq!(board, decoded);
}

#[test]
fn a_frame_is_found_by_the_load() {
    let mut board = Board::example();
    board.frame[..2].copy_from_slice(&[0, 5]);
    assert_eq!(board.after(LOAD), [2, 0, 0, 0, 1]);
    assert_eq!(board.window.state(), State::Found);
    assert_eq!(board.store, [0xA5; 19]);
}

#[test]
fn refused_loads_and_iterations_change_no_buffer() {
    let mut board = Board::example();
    board.code[4] = 17;
    let before = board.clone();
    assert_eq!(board.after(LOAD), [4, 8, 0, 0, 2]);
    assert_eq!(board.window.state(), State::Refused(Refusal::ScaleOrLimit));
    board.window = Window::IDLE;
    assert_eq!(board, before);

    type Change = fn(&mut Board);
    let changes: [(Change, Refusal); 8] = [
        (|board| board.frame.push(0), Refusal::CostCount),
        (|board| board.frame[1] = 1, Refusal::NoZeroCost),
        (|board| board.symbols.truncate(2), Refusal::ShortBuffer),
        (|board| board.costs.truncate(11), Refusal::ShortCosts),
        (|board| board.store.truncate(17), Refusal::ShortStore),
        (|board| board.margins.truncate(2), Refusal::ShortMargins),
        (|board| board.costs[11] = 511, Refusal::NoZeroCost),
        (|board| board.store[0] = 4, Refusal::Record),
    ];
    for (change, refusal) in changes {
        let mut board = Board::example();
        board.after(LOAD);
        board.after(ITERATE);
        board.window = Window::of([1, 0, 7, 0, 0]);
        change(&mut board);
        let before = board.clone();
        board.after(ITERATE);
        assert_eq!(board.window.state(), State::Refused(refusal));
        assert_eq!((board.window.iterations(), board.window.pending()), (0, 2));
        board.window = before.window;
        assert_eq!(board, before);
    }
}

/// "16 for each stored record" is tested "if t is not 0".
#[test]
fn the_first_iteration_reads_no_record() {
    let mut board = Board::example();
    board.store.fill(0xFF);
    board.after(LOAD);
    assert_eq!(board.after(ITERATE), [2, 0, 1, 0, 1]);
}

#[test]
fn the_interrupt_the_mask_and_pending() {
    let mut board = Board::example();
    board.after(LOAD);
    board.after(ITERATE);
    let mut window = board.window;
    assert_eq!((window.pending(), window.interrupt()), (1, false));
    window.set_mask(2);
    assert!(!window.interrupt());
    window.set_mask(0xFF);
    assert_eq!((window.mask(), window.interrupt()), (0xFF, true));
    window.clear_pending();
    assert_eq!(window.registers(), [2, 0, 1, 0xFF, 0]);
    assert!(!window.interrupt());
    for mask in 0..=u8::MAX {
        for pending in 0..=u8::MAX {
            let window = Window::of([9, 9, 9, mask, pending]);
            assert_eq!(window.interrupt(), mask & pending != 0);
        }
    }
}

#[test]
fn reads_of_every_address() {
    let window = Window::of([11, 12, 13, 14, 15]);
    for address in 0..=u8::MAX {
        let expected = match address {
            1..=5 => 10 + address,
            _ => 0,
        };
        assert_eq!(window.read(address), expected);
    }
    assert_eq!(window.state(), State::Unlisted(11));
    let unlisted = Window::of([4, 99, 0, 0, 0]).state();
    assert_eq!(unlisted, State::Refused(Refusal::Unlisted(99)));
    assert_eq!(Window::default(), Window::IDLE);
    assert_eq!(Window::IDLE.state(), State::Idle);
}

/// Every write but loads, iterations, "3 clears pending" and those of the mask is ignored.
#[test]
fn every_address_and_value() {
    let mut board = Board::example();
    board.after(LOAD);
    let before = board.clone();
    for address in 0..=u8::MAX {
        for value in 0..=u8::MAX {
            board.window = Window::of([1, 0, 255, 0x0F, 0xF0]);
            match (address, value) {
                (COMMAND, LOAD | CLEAR) | (MASK, _) => continue,
                // "2 with byte 3 at 255" does nothing.
                _ => board.write(address, value),
            }
            assert_eq!(board.window.registers(), [1, 0, 255, 0x0F, 0xF0]);
        }
    }
    board.window = before.window;
    assert_eq!(board, before);
}

#[test]
fn empty_slices_are_answered() {
    for state in 0..=u8::MAX {
        let mut window = Window::of([state, 1, 2, 0, 0]);
        window.iterate(Lent::default());
        let expected = match state {
            1 => [4, 5, 0, 0, 2],
            _ => [state, 1, 2, 0, 0],
        };
        assert_eq!(window.registers(), expected);
        window.load(Lent::default());
        assert_eq!(window.state(), State::Refused(Refusal::CodeBytes));
    }
}
