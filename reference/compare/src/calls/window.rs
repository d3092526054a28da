//! The register window: lists of writes and reads. Document 02, §8: "For every list of writes from idle, the window
//! answers as this paragraph says". Between the writes somebody else changes what is lent, and the registers, which
//! the caller keeps.

mod board;
mod changes;
mod seen;

use reference_decoder::sample::{Generator, Size};
use reference_decoder::window::{CLEAR, COMMAND, ITERATE, LOAD, MASK, RUNNING};

use super::decode::inputs;
use super::{first_byte, EntryPoint};
use crate::comparison::{Comparison, Difference};
use crate::tally::Tally;
use board::{Board, Write};
use changes::Home;

/// The register window. A random call is a list of writes, each of which is an answer.
pub const WINDOW: EntryPoint = EntryPoint {
    name: "window",
    expected: seen::expected,
    call,
    every,
};

/// The most writes of a list.
const MOST_WRITES: usize = 12;

/// Small codes are many: at the limits the reference decoder takes up to a second an iteration.
fn size(generator: &mut Generator) -> Size {
    match generator.below(4_000) {
        0..4 => Size::MOST_CHECKS,
        4 => Size::MOST_DEGREE,
        5..9 => inputs::WIDE,
        9..90 => Size::MEDIUM,
        _ => Size::SMALL,
    }
}

/// A random list of writes, with changes from outside between them.
fn call(generator: &mut Generator, tally: &mut Tally) -> Result<(), Difference> {
    let size = size(generator);
    let home = Home::new(generator, &size);
    let mut board = Board::new(generator, &home.input);
    if generator.once_in(4) {
        changes::change_registers(generator, &mut board.registers);
    }
    // Half of the lists are mostly left alone, so that long runs end too.
    let calm = if generator.once_in(2) { 20 } else { 2 };
    let mut write = command(LOAD);
    for _ in 0..generator.between(1..=MOST_WRITES) {
        compare(&mut board, write, tally)?;
        if generator.once_in(calm) {
            home.change(generator, &mut board);
        } else if generator.once_in(4) {
            home.restore(generator, &mut board);
        }
        write = drawn(generator, board.state());
    }
    Ok(())
}

/// A write of this command.
fn command(value: u8) -> Write {
    let address = COMMAND;
    Write { address, value }
}

/// Any write, most often a command 2 or, where that does nothing, a load.
fn drawn(generator: &mut Generator, state: u8) -> Write {
    let (address, value) = match generator.below(16) {
        2..8 if state != RUNNING => (COMMAND, LOAD),
        0 | 1 => (COMMAND, LOAD),
        2..11 => (COMMAND, ITERATE),
        11 => (COMMAND, CLEAR),
        12 => (COMMAND, generator.byte(0..=255)),
        13 => (MASK, generator.byte(0..=3)),
        14 => (MASK, generator.byte(0..=255)),
        _ => (generator.byte(0..=255), generator.byte(0..=3)),
    };
    Write { address, value }
}

/// A load and iterations with every first byte, then every write and every read there is.
fn every(tally: &mut Tally) -> Result<(), Difference> {
    let mut generator = Generator::new(0);
    for first in first_byte::ALL {
        let accepted_first = first_byte::accepted_or_drawn(&mut generator, first);
        let size = first_byte::small_codes(accepted_first);
        let mut home = Home::new(&mut generator, &size);
        home.input.line[0] = first;
        let mut board = Board::new(&mut generator, &home.input);
        compare(&mut board, command(LOAD), tally)?;
        // Iterations, whatever the load found.
        board.registers[0] = RUNNING;
        for _ in 0..2 {
            compare(&mut board, command(ITERATE), tally)?;
        }
    }
    every_write(&mut generator, tally)
}

/// Every write there is to a running window, and every read; in the course of it every mask meets every pending.
fn every_write(generator: &mut Generator, tally: &mut Tally) -> Result<(), Difference> {
    let home = Home::new(generator, &Size::SMALL);
    let mut loaded = Board::new(generator, &home.input);
    loaded.write_by_reference(command(LOAD));
    for address in 0..=u8::MAX {
        for value in 0..=u8::MAX {
            let mut board = loaded.clone();
            board.registers = [RUNNING, address, 0, value, address];
            let mut comparison = Comparison::default();
            board.compare_reads(&mut comparison, address..=address);
            let write = Write { address, value };
            comparison.end("window_read", || board.inputs(write))?;
            compare(&mut board, write, tally)?;
        }
    }
    Ok(())
}

/// Makes a write on both sides, from the same board, and compares the registers, all that is lent, the reads and the
/// interrupt. The board is then as the write left it.
fn compare(board: &mut Board, write: Write, tally: &mut Tally) -> Result<(), Difference> {
    let (mut after, mut expected) = (board.clone(), board.clone());
    expected.write_by_reference(write);
    after.write(write);
    seen::see(tally, write, board, &expected);
    let mut comparison = Comparison::default();
    after.compare(&mut comparison, &expected);
    comparison.end("window_write", || board.inputs(write))?;
    *board = expected;
    Ok(())
}
