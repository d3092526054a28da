//! The generator of pseudo-random numbers.

use std::ops::RangeInclusive;

/// SplitMix64: a 64-bit counter whose values are mixed by shifts and multiplications.
#[derive(Clone, Debug)]
pub struct Generator {
    state: u64,
}

impl Generator {
    /// A generator whose numbers depend on the seed only.
    pub fn new(seed: u64) -> Generator {
        Generator { state: seed }
    }

    /// The next 64 bits.
    pub fn bits(&mut self) -> u64 {
        self.state = self.state.wrapping_add(0x9E37_79B9_7F4A_7C15);
        let mut mixed = self.state;
        mixed = (mixed ^ (mixed >> 30)).wrapping_mul(0xBF58_476D_1CE4_E5B9);
        mixed = (mixed ^ (mixed >> 27)).wrapping_mul(0x94D0_49BB_1331_11EB);
        mixed ^ (mixed >> 31)
    }

    /// A number below `bound`, which is not 0.
    pub fn below(&mut self, bound: usize) -> usize {
        let product = u128::from(self.bits()) * (bound as u128);
        (product >> 64) as usize
    }

    /// A number in the range, both ends included.
    pub fn between(&mut self, range: RangeInclusive<usize>) -> usize {
        range.start() + self.below(range.end() - range.start() + 1)
    }

    /// A byte from the range, both ends included.
    pub fn byte(&mut self, range: RangeInclusive<u8>) -> u8 {
        let number = self.between(usize::from(*range.start())..=usize::from(*range.end()));
        u8::try_from(number).expect("a number between two bytes")
    }

    /// True once in `count` times on average.
    pub fn once_in(&mut self, count: usize) -> bool {
        self.below(count) == 0
    }

    /// One of the items, of which there is at least one.
    pub fn one_of<T: Copy>(&mut self, items: &[T]) -> T {
        items[self.below(items.len())]
    }

    /// Arbitrary bytes, as the content of a lent buffer before a call.
    pub fn bytes(&mut self, count: usize) -> Vec<u8> {
        (0..count).map(|_| self.byte(0..=255)).collect()
    }

    /// Arbitrary 16-bit numbers, as the content of a lent cost buffer before a call.
    pub fn numbers(&mut self, count: usize) -> Vec<u16> {
        (0..count).map(|_| self.bits() as u16).collect()
    }

    /// `count` different numbers below `bound`, rising; `count` is at most `bound`.
    pub fn rising(&mut self, count: usize, bound: usize) -> Vec<usize> {
        let mut numbers: Vec<usize> = (0..bound).collect();
        for place in 0..count {
            let other = self.between(place..=bound - 1);
            numbers.swap(place, other);
        }
        numbers.truncate(count);
        numbers.sort_unstable();
        numbers
    }
}
