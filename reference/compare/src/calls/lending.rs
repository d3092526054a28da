//! The slices of a call that reads some and fills one.

use reference_decoder::sample::Generator;

use crate::comparison::Comparison;
use crate::lent::Lent;

/// The slices, N of them to read, to lend to one side.
#[derive(Clone)]
pub struct Lending<const N: usize> {
    read: [Lent<u8>; N],
    filled: Lent<u8>,
}

impl<const N: usize> Lending<N> {
    /// Slices with this content, and one of this length to fill.
    pub fn new(generator: &mut Generator, read: [&[u8]; N], length: usize) -> Lending<N> {
        Lending {
            read: read.map(|content| Lent::holding(generator, content)),
            filled: Lent::to_fill(generator, length),
        }
    }

    /// Lends them to a call.
    pub fn to<A>(&mut self, call: impl FnOnce([&[u8]; N], &mut [u8]) -> A) -> A {
        let read = self.read.each_ref().map(Lent::slice);
        call(read, self.filled.slice_mut())
    }

    /// The slice that is filled.
    pub fn filled(&self) -> &[u8] {
        self.filled.slice()
    }

    /// Compares the slices after the library's call with what they must hold; the names are in the order
    /// of the parameters, that of the filled one last.
    pub fn compare(
        &self,
        comparison: &mut Comparison,
        (names, filled): ([&str; N], &str),
        expected: &Lending<N>,
    ) {
        comparison.lent(filled, &self.filled, &expected.filled);
        let slices = self.read.iter().zip(&expected.read);
        for (name, (after, before)) in names.into_iter().zip(slices) {
            comparison.lent(name, after, before);
        }
    }
}
