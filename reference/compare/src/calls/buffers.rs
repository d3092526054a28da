//! The buffers that a decoding fills, and calls that fill them.

use std::fmt::Debug;

use reference_decoder::sample::Generator;

use super::decode::inputs::Input;
use crate::comparison::Comparison;
use crate::lent::Lent;

/// The buffers, to lend to one side.
#[derive(Clone)]
pub struct Buffers {
    pub symbols: Lent<u8>,
    pub costs: Lent<u16>,
    pub store: Lent<u8>,
    pub margins: Lent<u16>,
}

impl Buffers {
    /// Buffers of these lengths, in the order of the parameters.
    pub fn new(generator: &mut Generator, lengths: [usize; 4]) -> Buffers {
        let [symbols, costs, store, margins] = lengths;
        Buffers {
            symbols: Lent::to_fill(generator, symbols),
            costs: Lent::to_fill(generator, costs),
            store: Lent::to_fill(generator, store),
            margins: Lent::to_fill(generator, margins),
        }
    }

    /// Lends them to the library, with a code line and a frame or frames.
    pub fn lend<'a>(&'a mut self, line: &'a Lent<u8>, frame: &'a Lent<u8>) -> petsivola::Lent<'a> {
        petsivola::Lent {
            code: line.slice(),
            frame: frame.slice(),
            symbols: self.symbols.slice_mut(),
            costs: self.costs.slice_mut(),
            store: self.store.slice_mut(),
            margins: self.margins.slice_mut(),
        }
    }

    /// The same to the reference decoder.
    pub fn lend_to_reference<'a>(
        &'a mut self,
        line: &'a Lent<u8>,
        frame: &'a Lent<u8>,
    ) -> reference_decoder::Lent<'a> {
        reference_decoder::Lent {
            code: line.slice(),
            frame: frame.slice(),
            symbols: self.symbols.slice_mut(),
            costs: self.costs.slice_mut(),
            store: self.store.slice_mut(),
            margins: self.margins.slice_mut(),
        }
    }

    /// Compares the buffers after the library's call with what they must hold.
    pub fn compare(&self, comparison: &mut Comparison, expected: &Buffers) {
        comparison.lent("symbols", &self.symbols, &expected.symbols);
        comparison.lent("costs", &self.costs, &expected.costs);
        comparison.lent("store", &self.store, &expected.store);
        comparison.lent("margins", &self.margins, &expected.margins);
    }
}

/// Makes a call on both sides, in buffers of the same content, and compares the answers and all that is lent. Answers
/// what the reference decoder answered, the buffers as it left them, and what differs.
pub fn compare<A: PartialEq + Debug>(
    generator: &mut Generator,
    input: &Input,
    library: impl Fn(petsivola::Lent) -> A,
    reference: impl FnOnce(reference_decoder::Lent) -> A,
) -> (A, Buffers, Comparison) {
    let line = Lent::holding(generator, &input.line);
    let frame = Lent::holding(generator, &input.frame);
    let (line_lent, frame_lent) = (line.clone(), frame.clone());
    let mut buffers = Buffers::new(generator, input.lengths);
    let mut buffers_expected = buffers.clone();
    let expected = reference(buffers_expected.lend_to_reference(&line, &frame));
    let answer = library(buffers.lend(&line_lent, &frame_lent));

    let mut comparison = Comparison::default();
    comparison.answers(&answer, &expected);
    buffers.compare(&mut comparison, &buffers_expected);
    // A second call in the used buffers gives the same: nothing was left behind.
    if comparison.agrees() {
        let again = library(buffers.lend(&line_lent, &frame_lent));
        comparison.answers(&again, &expected);
        buffers.compare(&mut comparison, &buffers_expected);
        comparison.explain("at the second call in the same buffers");
    }
    comparison.lent("code", &line_lent, &line);
    comparison.lent("frame", &frame_lent, &frame);
    (expected, buffers_expected, comparison)
}
