//! Document 02, §8: "a load that is not refused, followed by I commands 2 with no load between, ends with the
//! outcome, t and buffers of one decode call on the buffers as the load found them, if the same code, frame and
//! buffers are lent throughout and nobody else writes them."

mod board;

use board::Board;
use reference_decoder::machine::Machine;
use reference_decoder::sample::{self, Buffers, Generator, Size, Style};
use reference_decoder::{code_line, Outcome};

/// A board with a random code and a frame near a word of it; the buffers are longer than they need be, now and
/// then, and full of arbitrary numbers.
fn board(generator: &mut Generator, size: &Size) -> Board {
    let sample = sample::code(generator, size);
    let code = code_line(&sample.line).unwrap();
    let style = generator.one_of(&Style::ALL);
    let wrong = generator.between(0..=code.n);
    let frame = sample::noisy_frame(generator, &code, &sample.word, wrong, style);
    let lengths = code.lengths().map(|length| length + generator.below(3));
    Board {
        buffers: Buffers::arbitrary(generator, lengths),
        ..Board::new(&sample.line, &frame)
    }
}

/// Any write but a load and a command 2.
fn other_write(generator: &mut Generator, board: &mut Board) {
    let address = generator.byte(0..=7);
    let value = match (address, generator.byte(0..=9)) {
        (0, 1 | 2) => 3,
        (_, value) => value,
    };
    board.write(address, value);
}

#[test]
fn a_load_and_i_iterations_are_one_decoding() {
    let mut generator = Generator::new(82);
    let mut counts = [0; 4];
    for round in 0..3_000 {
        let size = [Size::SMALL, Size::MEDIUM][usize::from(round % 25 == 0)].clone();
        let mut board = board(&mut generator, &size);
        let limit = board.code[5];
        let mut decoded = board.buffers.clone();
        let outcome = decoded.decode(&board.code, &board.frame).unwrap();
        board.load();
        for _ in 0..limit {
            while generator.once_in(2) {
                other_write(&mut generator, &mut board);
            }
            board.iterate();
        }
        other_write(&mut generator, &mut board);
        let state = match outcome {
            Outcome::Found(_) => 2,
            Outcome::NotFound(_) => 3,
        };
        let [shown_state, refusal, t, ..] = board.registers();
        assert_eq!([shown_state, refusal, t], [state, 0, outcome.iterations()]);
        assert_eq!(board.buffers, decoded);
        let kind = match outcome {
            Outcome::Found(0) => 0,
            Outcome::Found(1) => 1,
            Outcome::Found(_) => 2,
            Outcome::NotFound(_) => 3,
        };
        counts[kind] += 1;
    }
    assert!(counts.iter().all(|&count| count > 50), "{counts:?}");
}

/// The longest run: 255 iterations.
#[test]
fn a_load_and_255_iterations() {
    let mut board = Board::of(board::CONTRADICTING, board::NEVER_FOUND);
    board.code[4..6].copy_from_slice(&[16, 255]);
    let mut decoded = board.buffers.clone();
    let outcome = decoded.decode(&board.code, &board.frame).unwrap();
    board.load();
    (0..255).for_each(|_| board.iterate());
    let state = 2 + outcome.status();
    assert_eq!(board.registers()[..3], [state, 0, outcome.iterations()]);
    assert_eq!(board.buffers, decoded);
}

/// "After each of them that is not refused the buffers hold the decisions, margins, costs and records of that
/// moment": after t iterations those of a decoding that is stopped there.
#[test]
fn each_moment_is_that_of_the_machine() {
    let mut generator = Generator::new(83);
    for _ in 0..300 {
        let mut board = board(&mut generator, &Size::SMALL);
        let code = code_line(&board.code).unwrap();
        let mut machine = Machine::start(&code, &board.frame);
        let mut expected = board.buffers.clone();
        board.load();
        loop {
            let Buffers {
                symbols,
                costs,
                store,
                margins,
            } = &mut expected;
            machine.fill(symbols, costs, store, margins);
            assert_eq!(board.buffers, expected);
            assert_eq!(board.window.iterations, machine.iterations);
            if board.window.state != 1 {
                break;
            }
            board.iterate();
            machine.iterate();
        }
        let satisfied = machine.satisfies_every_check();
        assert_eq!(board.window.state == 2, satisfied);
    }
}

/// A window that is taken up with other buffers goes on from what these hold.
#[test]
fn an_iteration_goes_on_from_what_is_lent() {
    let mut generator = Generator::new(84);
    let mut other_results = 0;
    for _ in 0..300 {
        let mut board = board(&mut generator, &Size::SMALL);
        let code = code_line(&board.code).unwrap();
        board.load();
        board.iterate();
        let q = code.field().size();
        let costs = sample::columns(&mut generator, q, code.n, Style::Uniform);
        let degrees = code.checks.iter().map(|check| check.weights.len());
        let records = degrees.map(|degree| sample::record(&mut generator, code.first, degree));
        let records: Vec<Option<Vec<u8>>> = records.map(Some).collect();
        let store = records.iter().flatten().flatten().copied();
        let mut machine = Machine::start(&code, &costs);
        let mut lent = board.clone();
        lent.set_registers([1, 0, 9, 0, 0]);
        lent.buffers.costs = costs.iter().copied().map(u16::from).collect();
        lent.buffers.store = store.collect();
        (machine.records, machine.iterations) = (records, 9);
        machine.iterate();
        lent.iterate();
        assert_eq!(lent.window.iterations, 10);
        let left = lent.buffers.costs.iter().copied().map(i32::from);
        assert!(left.eq(machine.costs.iter().flatten().copied()));
        let left = lent.buffers.store.iter();
        assert!(left.eq(machine.records.iter().flatten().flatten()));
        other_results += usize::from(lent.buffers != board.buffers);
    }
    assert!(other_results > 250);
}
