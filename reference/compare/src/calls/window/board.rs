//! A register window with all that its writes are lent.

use std::ops::RangeInclusive;

use petsivola::Window;
use reference_decoder::sample::Generator;
use reference_decoder::window::{COMMAND, LOAD};

use crate::calls::buffers::Buffers;
use crate::calls::decode::inputs::Input;
use crate::comparison::{Comparison, Inputs};
use crate::lent::Lent;

/// A write of one byte.
#[derive(Clone, Copy, Debug, PartialEq, Eq)]
pub struct Write {
    pub address: u8,
    pub value: u8,
}

/// The registers, which the caller keeps, and what is lent.
#[derive(Clone)]
pub struct Board {
    /// Bytes 1 to 5.
    pub registers: [u8; 5],
    pub line: Lent<u8>,
    pub frame: Lent<u8>,
    pub buffers: Buffers,
    /// The code line of the last load, to count what is seen.
    pub loaded: Vec<u8>,
}

impl Board {
    /// An idle window over this input.
    pub fn new(generator: &mut Generator, input: &Input) -> Board {
        Board {
            registers: [0; 5],
            line: Lent::holding(generator, &input.line),
            frame: Lent::holding(generator, &input.frame),
            buffers: Buffers::new(generator, input.lengths),
            loaded: input.line.clone(),
        }
    }

    /// The lengths of the buffers, in the order of the parameters.
    pub fn lengths(&self) -> [usize; 4] {
        let buffers = &self.buffers;
        [
            buffers.symbols.slice().len(),
            buffers.costs.slice().len(),
            buffers.store.slice().len(),
            buffers.margins.slice().len(),
        ]
    }

    /// The state, byte 1.
    pub fn state(&self) -> u8 {
        self.registers[0]
    }

    /// t, byte 3.
    pub fn iterations(&self) -> u8 {
        self.registers[2]
    }

    /// The library's write.
    pub fn write(&mut self, write: Write) {
        let mut window = Window::of(self.registers);
        let lent = self.buffers.lend(&self.line, &self.frame);
        window.write(write.address, write.value, lent);
        self.registers = window.registers();
    }

    /// The same by the reference decoder.
    pub fn write_by_reference(&mut self, write: Write) {
        let mut window = reference_decoder::Window::from(self.registers);
        let lent = self.buffers.lend_to_reference(&self.line, &self.frame);
        window.write(write.address, write.value, lent);
        self.registers = [1, 2, 3, 4, 5].map(|address| window.read(address));
        if (write.address, write.value) == (COMMAND, LOAD) {
            self.loaded = self.line.slice().to_vec();
        }
    }

    /// Compares the board after the library's write with the one after the reference decoder's.
    pub fn compare(&self, comparison: &mut Comparison, expected: &Board) {
        comparison.answers(&self.registers, &expected.registers);
        self.buffers.compare(comparison, &expected.buffers);
        comparison.lent("code", &self.line, &expected.line);
        comparison.lent("frame", &self.frame, &expected.frame);
        self.compare_reads(comparison, 0..=8);
    }

    /// Compares the reads of these addresses and the interrupt.
    pub fn compare_reads(&self, comparison: &mut Comparison, addresses: RangeInclusive<u8>) {
        let library = Window::of(self.registers);
        let reference = reference_decoder::Window::from(self.registers);
        for address in addresses {
            comparison.answers(&library.read(address), &reference.read(address));
        }
        comparison.answers(&library.interrupt(), &reference.interrupt());
    }

    /// All that a write was given, so that it can be made again.
    pub fn inputs(&self, write: Write) -> Inputs {
        let costs = self.buffers.costs.slice();
        let [symbols, .., margins] = self.lengths();
        let costs: Vec<u8> = costs.iter().flat_map(|cost| cost.to_be_bytes()).collect();
        Inputs::default()
            .number("address", usize::from(write.address))
            .number("value", usize::from(write.value))
            .bytes("registers", &self.registers)
            .bytes("code", self.line.slice())
            .bytes("frame", self.frame.slice())
            .bytes("costs", &costs)
            .bytes("store", self.buffers.store.slice())
            .number("symbol buffer length", symbols)
            .number("margin buffer length", margins)
    }
}
