//! The buffers that a decoding fills.

use super::Generator;
use crate::early::{decode_early, Stopped};
use crate::lent::Lent;
use crate::machine::{decode, Outcome};
use crate::refusal::Refusal;

/// The four buffers of a decoding, to lend.
#[derive(Clone, Debug, PartialEq, Eq)]
pub struct Buffers {
    /// The symbol buffer.
    pub symbols: Vec<u8>,
    /// The cost buffer.
    pub costs: Vec<u16>,
    /// The record store.
    pub store: Vec<u8>,
    /// The margin buffer.
    pub margins: Vec<u16>,
}

impl Buffers {
    /// Buffers of these lengths, in the order of the parameters, full of 0.
    pub fn zeroed([symbols, costs, store, margins]: [usize; 4]) -> Buffers {
        Buffers {
            symbols: vec![0; symbols],
            costs: vec![0; costs],
            store: vec![0; store],
            margins: vec![0; margins],
        }
    }

    /// Buffers of these lengths, in the order of the parameters, of arbitrary content.
    pub fn arbitrary(generator: &mut Generator, lengths: [usize; 4]) -> Buffers {
        let [symbols, costs, store, margins] = lengths;
        Buffers {
            symbols: generator.bytes(symbols),
            costs: generator.numbers(costs),
            store: generator.bytes(store),
            margins: generator.numbers(margins),
        }
    }

    /// Decodes a frame in these buffers, by the reference decoder.
    ///
    /// # Errors
    ///
    /// The refusal.
    pub fn decode(&mut self, code: &[u8], frame: &[u8]) -> Result<Outcome, Refusal> {
        let (symbols, costs) = (&mut self.symbols, &mut self.costs);
        let (store, margins) = (&mut self.store, &mut self.margins);
        decode(code, frame, symbols, costs, store, margins)
    }

    /// The same up to the first moment at which the decisions satisfy every check.
    ///
    /// # Errors
    ///
    /// The refusal.
    pub fn decode_early(&mut self, code: &[u8], frame: &[u8]) -> Result<Stopped, Refusal> {
        let (symbols, costs) = (&mut self.symbols, &mut self.costs);
        let (store, margins) = (&mut self.store, &mut self.margins);
        decode_early(code, frame, symbols, costs, store, margins)
    }

    /// Lends them with a code line and a frame, or the frames of several channels.
    pub fn lend<'a>(&'a mut self, code: &'a [u8], frame: &'a [u8]) -> Lent<'a> {
        Lent {
            code,
            frame,
            symbols: &mut self.symbols,
            costs: &mut self.costs,
            store: &mut self.store,
            margins: &mut self.margins,
        }
    }

    /// Parts of the buffers: as many elements of each from its start, and the others.
    pub fn split(&self, lengths: [usize; 4]) -> [Buffers; 2] {
        let [symbols, costs, store, margins] = lengths;
        let (symbols, costs) = (self.symbols.split_at(symbols), self.costs.split_at(costs));
        let (store, margins) = (self.store.split_at(store), self.margins.split_at(margins));
        let part = |symbols: &[u8], costs: &[u16], store: &[u8], margins: &[u16]| Buffers {
            symbols: symbols.to_vec(),
            costs: costs.to_vec(),
            store: store.to_vec(),
            margins: margins.to_vec(),
        };
        [
            part(symbols.0, costs.0, store.0, margins.0),
            part(symbols.1, costs.1, store.1, margins.1),
        ]
    }
}
