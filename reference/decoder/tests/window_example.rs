//! The frames of `examples/window.c`, through this package's window: the lines are those that the example must print.

mod board;

use board::Board;
use reference_decoder::line::hexadecimal;
use reference_decoder::window::{CLEAR, COMMAND, FOUND, ITERATE, LOAD, REFUSED};

/// What `examples/window.c` prints.
const EXPECTED: &str = include_str!("../../../examples/window.out");

const CODE: &str = "020006040C08 03000001000102000301 03000101000203000401 \
                    03000002000201000501 03000301000402000503";
const FRAME: &str = "0009030B 040F0200 0408000D 06000D0A 0B0A0008 08070A00";

/// Writes a command and adds the line that shows what it leaves.
fn command(board: &mut Board, lines: &mut Vec<String>, name: &str, value: u8) {
    board.write(COMMAND, value);
    let [state, refusal, t, mask, pending] = board.registers();
    let symbols = String::from_utf8(hexadecimal(&board.buffers.symbols)).expect("digits");
    lines.push(format!(
        "{name:<9} state {state}, refusal {refusal}, t {t}, mask {mask}, pending {pending}, symbols {symbols}"
    ));
}

/// One frame: a load, iterations until the interrupt, what came, and clearing it.
fn receive(board: &mut Board, lines: &mut Vec<String>) {
    command(board, lines, "load", LOAD);
    while !board.window.interrupt() {
        command(board, lines, "iterate", ITERATE);
    }
    let [state, refusal, t, ..] = board.registers();
    lines.push(match state {
        FOUND => format!("interrupt found, t = {t}"),
        REFUSED => format!("interrupt refused by {refusal}"),
        _ => format!("interrupt not found, t = {t}"),
    });
    command(board, lines, "clear", CLEAR);
}

#[test]
fn the_example_prints_these_lines() {
    let mut board = Board::of(CODE, FRAME);
    let mut lines = Vec::new();
    board.mask(3);
    receive(&mut board, &mut lines);
    board.frame[0] = 1;
    receive(&mut board, &mut lines);
    assert_eq!(lines.join("\n") + "\n", EXPECTED);
}
