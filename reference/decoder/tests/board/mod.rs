//! A register window with all that its writes are lent.

// Each test file uses a part of it.
#![allow(dead_code)]

use reference_decoder::code_line;
use reference_decoder::sample::{bytes, Buffers, Generator};
use reference_decoder::window::{Window, CLEAR, COMMAND, ITERATE, LOAD, MASK};

/// Document 01's code, with an iteration limit of 3: a check on three columns, weights 1.
pub const CODE: &str = "020003011003 03 000001 000101 000201";
/// A frame that is found after one iteration.
pub const FOUND_LATER: &str = "05000907 00040803 0006020A";
/// A frame whose first decisions, all 0, satisfy the check.
pub const FOUND_AT_ONCE: &str = "00050907 00040803 0006020A";
/// Two checks that contradict each other but for the word 0, g = 1: no iteration of the first 3 finds it.
pub const CONTRADICTING: &str = "020002020103 02 000001 000101 02 000001 000102";
/// A frame for it.
pub const NEVER_FOUND: &str = "FF00FFFF FF00FFFF";

/// The window and what is lent.
#[derive(Clone, Debug, PartialEq)]
pub struct Board {
    pub window: Window,
    pub code: Vec<u8>,
    pub frame: Vec<u8>,
    pub buffers: Buffers,
}

impl Board {
    /// An idle window; the buffers have the lengths that the code needs and arbitrary content.
    pub fn new(code: &[u8], frame: &[u8]) -> Board {
        let lengths = code_line(code).expect("an accepted code line").lengths();
        Board {
            window: Window::default(),
            code: code.to_vec(),
            frame: frame.to_vec(),
            buffers: Buffers::arbitrary(&mut Generator::new(80), lengths),
        }
    }

    /// The same from hexadecimal digits.
    pub fn of(code: &str, frame: &str) -> Board {
        Board::new(&bytes(code), &bytes(frame))
    }

    /// Writes a byte.
    pub fn write(&mut self, address: u8, value: u8) {
        let lent = self.buffers.lend(&self.code, &self.frame);
        self.window.write(address, value, lent);
    }

    pub fn load(&mut self) {
        self.write(COMMAND, LOAD);
    }

    pub fn iterate(&mut self) {
        self.write(COMMAND, ITERATE);
    }

    pub fn clear(&mut self) {
        self.write(COMMAND, CLEAR);
    }

    pub fn mask(&mut self, mask: u8) {
        self.write(MASK, mask);
    }

    /// Bytes 1 to 5.
    pub fn registers(&self) -> [u8; 5] {
        [1, 2, 3, 4, 5].map(|address| self.window.read(address))
    }

    /// Sets bytes 1 to 5, as no list of writes may have left them.
    pub fn set_registers(&mut self, registers: [u8; 5]) {
        self.window = Window::from(registers);
    }
}
