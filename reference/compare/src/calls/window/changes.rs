//! What somebody else does to a board between two writes.

use reference_decoder::sample::{self, Generator, Size, Style};
use reference_decoder::Code;

use super::board::Board;
use crate::calls::decode::inputs::Input;
use crate::calls::first_byte;
use crate::lent::{length_around, Element, Lent};

/// The greatest cost of P.
const MOST_COST: u16 = 510;

/// The accepted input with which a script began. Changes aim at its used parts, whatever is lent by then.
pub struct Home {
    pub code: Code,
    pub input: Input,
}

impl Home {
    /// An accepted input of the size.
    pub fn new(generator: &mut Generator, size: &Size) -> Home {
        let (code, input) = Input::accepted(generator, size);
        Home { code, input }
    }

    /// Lends the accepted code, frame and lengths again; the buffers keep what they hold.
    pub fn restore(&self, generator: &mut Generator, board: &mut Board) {
        board.line = Lent::holding(generator, &self.input.line);
        board.frame = Lent::holding(generator, &self.input.frame);
        for place in 0..4 {
            set_length(generator, board, place, self.input.lengths[place]);
        }
    }

    /// Changes one thing.
    pub fn change(&self, generator: &mut Generator, board: &mut Board) {
        match generator.below(20) {
            0..5 => self.change_code(generator, board),
            5 => self.change_frame(generator, board),
            6 => {
                let place = generator.below(4);
                let length = length_around(generator, self.code.lengths()[place]);
                set_length(generator, board, place, length);
            }
            7 => {
                change_element(generator, &mut board.buffers.symbols);
                change_element(generator, &mut board.buffers.margins);
            }
            8..13 => self.change_costs(generator, board.buffers.costs.slice_mut()),
            13..17 => self.change_store(generator, board.buffers.store.slice_mut()),
            _ => change_registers(generator, &mut board.registers),
        }
    }

    /// Another code for the same frame, another number of the code, or a damaged line.
    fn change_code(&self, generator: &mut Generator, board: &mut Board) {
        let mut line = self.input.line.clone();
        match generator.below(7) {
            0 => line = self.other_code(generator),
            1 => line[0] = first_byte::with_other_deviations(line[0]),
            2 => line[0] = first_byte::with_other_edition(line[0]),
            3 => line[4] = generator.byte(1..=16),
            4 | 5 => line[5] = generator.byte(1..=6),
            _ => line = sample::damaged_code(generator, &line),
        }
        board.line = Lent::holding(generator, &line);
    }

    /// A code line with the same p and N and other checks.
    fn other_code(&self, generator: &mut Generator) -> Vec<u8> {
        let size = Size {
            columns: self.code.n..=self.code.n,
            ..first_byte::small_codes(self.code.first)
        };
        sample::code(generator, &size).line
    }

    /// Another frame for the same code, of which an iteration reads nothing, or a damaged one.
    fn change_frame(&self, generator: &mut Generator, board: &mut Board) {
        let frame = match generator.once_in(3) {
            true => sample::frame(generator, &self.code, Style::Uniform),
            false => sample::damaged_frame(generator, self.code.field().size(), &self.input.frame),
        };
        board.frame = Lent::holding(generator, &frame);
    }

    /// One cost or all of them, accepted or not.
    fn change_costs(&self, generator: &mut Generator, costs: &mut [u16]) {
        let q = self.code.field().size();
        let used = costs.len().min(self.code.frame_length());
        let used = &mut costs[..used];
        if used.is_empty() {
            return;
        }
        let place = generator.below(used.len());
        match generator.below(6) {
            0 => used[place] = generator.between(0..=usize::from(MOST_COST)) as u16,
            1 => used[place] = generator.one_of(&[0, 255, 256, MOST_COST]),
            2 => used[place] = generator.one_of(&[MOST_COST + 1, 512, 766, 0x8000, 0xFFFF]),
            3 => {
                let column = used.chunks_mut(q).nth(place / q).unwrap_or_default();
                column.iter_mut().for_each(|cost| *cost = (*cost).max(1));
            }
            _ => {
                for column in used.chunks_mut(q) {
                    let any = |_| generator.between(0..=usize::from(MOST_COST)) as u16;
                    let drawn: Vec<u16> = column.iter().map(any).collect();
                    column.copy_from_slice(&drawn);
                    column[generator.below(column.len())] = 0;
                }
            }
        }
    }

    /// One byte, one record or all of them; a record has accepted form or is damaged.
    fn change_store(&self, generator: &mut Generator, store: &mut [u8]) {
        if generator.once_in(4) && !store.is_empty() {
            store[generator.below(store.len())] = generator.byte(0..=255);
            return;
        }
        let aim = generator.below(3 * self.code.m);
        let mut start = 0;
        for (place, check) in self.code.checks.iter().enumerate() {
            let degree = check.weights.len();
            let mut record = sample::record(generator, self.code.first, degree);
            let length = record.len();
            if place == aim {
                let rule = self.code.rule();
                record = sample::damaged_record(generator, rule, degree, &record);
            }
            // A record of another length would move those behind it.
            if let Some(lent) = store.get_mut(start..start + length) {
                if record.len() == length && (aim >= self.code.m || place == aim) {
                    lent.copy_from_slice(&record);
                }
            }
            start += length;
        }
    }
}

/// Lends the buffer with this place among the parameters in another length.
fn set_length(generator: &mut Generator, board: &mut Board, place: usize, length: usize) {
    let buffers = &mut board.buffers;
    match place {
        0 => buffers.symbols.resize(generator, length),
        1 => buffers.costs.resize(generator, length),
        2 => buffers.store.resize(generator, length),
        _ => buffers.margins.resize(generator, length),
    }
}

/// Changes one element, if there is any.
fn change_element<T: Element>(generator: &mut Generator, lent: &mut Lent<T>) {
    let elements = lent.slice_mut();
    if !elements.is_empty() {
        elements[generator.below(elements.len())] = T::arbitrary(generator, 1)[0];
    }
}

/// Registers that no list of writes may leave: all five arbitrary, or a running window with any t and any bits.
pub fn change_registers(generator: &mut Generator, registers: &mut [u8; 5]) {
    for register in registers.iter_mut() {
        *register = generator.byte(0..=255);
    }
    match generator.below(4) {
        0 => (),
        1 => registers[0] = generator.byte(0..=5),
        2 => (registers[0], registers[2]) = (1, generator.one_of(&[0, 1, 253, 254, 255])),
        _ => (registers[0], registers[2]) = (1, generator.byte(0..=8)),
    }
}
