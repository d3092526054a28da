//! Lent slices.

use reference_decoder::sample::Generator;

/// A number that a lent slice can hold.
pub trait Element: Copy + PartialEq + std::fmt::Display {
    /// 0.
    const LEAST: Self;
    /// The greatest number.
    const GREATEST: Self;
    /// Arbitrary numbers.
    fn arbitrary(generator: &mut Generator, count: usize) -> Vec<Self>;
}

impl Element for u8 {
    const LEAST: u8 = u8::MIN;
    const GREATEST: u8 = u8::MAX;

    fn arbitrary(generator: &mut Generator, count: usize) -> Vec<u8> {
        generator.bytes(count)
    }
}

impl Element for u16 {
    const LEAST: u16 = u16::MIN;
    const GREATEST: u16 = u16::MAX;

    fn arbitrary(generator: &mut Generator, count: usize) -> Vec<u16> {
        generator.numbers(count)
    }
}

/// Elements before a lent slice, at most: its start is aligned in every way that its type allows.
const MOST_BEFORE: usize = 15;

/// Elements after a lent slice.
const AFTER: usize = 64;

/// A slice to lend, in the middle of other elements. These are compared too, so that a call that
/// leaves its slice is seen.
#[derive(Clone, Debug, PartialEq, Eq)]
pub struct Lent<T> {
    elements: Vec<T>,
    start: usize,
    end: usize,
}

impl<T: Element> Lent<T> {
    /// A slice with this content, for a call to read.
    pub fn holding(generator: &mut Generator, content: &[T]) -> Lent<T> {
        let before = generator.between(0..=MOST_BEFORE);
        let mut elements = T::arbitrary(generator, before);
        elements.extend(content);
        elements.extend(T::arbitrary(generator, AFTER));
        Lent {
            elements,
            start: before,
            end: before + content.len(),
        }
    }

    /// A slice of this length, for a call to fill: it holds arbitrary numbers, or now and then only
    /// the least or only the greatest one.
    pub fn to_fill(generator: &mut Generator, length: usize) -> Lent<T> {
        let content = match generator.below(8) {
            0 => vec![T::LEAST; length],
            1 => vec![T::GREATEST; length],
            _ => T::arbitrary(generator, length),
        };
        Lent::holding(generator, &content)
    }

    /// Takes the slice to another length: the elements at its start stay, and arbitrary ones follow.
    pub fn resize(&mut self, generator: &mut Generator, length: usize) {
        let mut content = self.slice().to_vec();
        content.truncate(length);
        content.extend(T::arbitrary(generator, length - content.len()));
        *self = Lent::holding(generator, &content);
    }

    /// The slice, for a call to read.
    pub fn slice(&self) -> &[T] {
        &self.elements[self.start..self.end]
    }

    /// The slice, for a call to fill.
    pub fn slice_mut(&mut self) -> &mut [T] {
        &mut self.elements[self.start..self.end]
    }

    /// The first element that is not as in `other`, which has the same place: its number, counted
    /// from the slice's start, and the two.
    pub fn first_difference(&self, other: &Lent<T>) -> Option<String> {
        let pairs = self.elements.iter().zip(&other.elements);
        let place = pairs.clone().position(|(a, b)| a != b)?;
        let (a, b) = (self.elements[place], other.elements[place]);
        let side = if (self.start..self.end).contains(&place) {
            "in the lent slice"
        } else {
            "outside the lent slice"
        };
        let number = place as i64 - self.start as i64;
        Some(format!("element {number}, {side}, is {a}, not {b}"))
    }
}

/// A length at or near the one that is needed, too short ones included.
pub fn length_around(generator: &mut Generator, needed: usize) -> usize {
    match generator.below(7) {
        0 => 0,
        1 => generator.below(needed + 1),
        2 => needed.saturating_sub(2),
        3 => needed.saturating_sub(1),
        4 => needed + 1,
        5 => needed + 2,
        _ => needed,
    }
}

/// A length that is long enough.
pub fn length_enough(generator: &mut Generator, needed: usize) -> usize {
    needed + generator.below(20)
}

#[cfg(test)]
mod tests {
    use super::*;

    #[test]
    fn a_difference_is_found_inside_and_outside_the_slice() {
        let mut generator = Generator::new(1);
        let lent = Lent::holding(&mut generator, &[1_u16, 2, 3]);
        assert_eq!(lent.slice(), [1, 2, 3]);
        assert_eq!(lent.first_difference(&lent), None);

        let mut changed = lent.clone();
        changed.slice_mut()[2] = 7;
        let difference = changed.first_difference(&lent);
        let words = "element 2, in the lent slice, is 7, not 3";
        assert_eq!(difference.as_deref(), Some(words));

        let mut changed = lent.clone();
        let after = changed.end;
        changed.elements[after] ^= 1;
        let difference = changed.first_difference(&lent).expect("a difference");
        assert!(difference.starts_with("element 3, outside the lent slice, is "));
    }

    #[test]
    fn lengths_are_on_both_sides_of_the_needed_one() {
        let mut generator = Generator::new(2);
        let lengths: Vec<usize> = (0..500)
            .map(|_| length_around(&mut generator, 100))
            .collect();
        for length in [0, 98, 99, 100, 101, 102] {
            assert!(lengths.contains(&length), "{length}");
        }
        assert!((0..500).all(|_| length_enough(&mut generator, 100) >= 100));
    }
}
