//! What a call's result says. The library answers one 32-bit number: document 01's number (0
//! accepted or found, 1 not found, else the refusal) times 65,536, plus the value (the product, the
//! bytes written, t, or the check updates; 0 on a refusal).

use crate::refusal::Refusal;

/// "The result is found (0) or not found (1), with t."
#[derive(Clone, Copy, Debug, PartialEq, Eq, PartialOrd, Ord, Hash)]
pub enum Outcome {
    /// The symbols satisfy every check after this many iterations.
    Found(u8),
    /// The symbols do not satisfy every check after this many iterations, the code line's limit.
    NotFound(u8),
}

impl Outcome {
    /// "found (0) or not found (1)"
    pub const fn status(self) -> u8 {
        match self {
            Outcome::Found(_) => 0,
            Outcome::NotFound(_) => 1,
        }
    }

    /// t, the number of iterations.
    pub const fn iterations(self) -> u8 {
        match self {
            Outcome::Found(t) | Outcome::NotFound(t) => t,
        }
    }
}

/// Where a decoding stopped. Document 02, §13: "It returns the number of check updates, which is at most M times I", so
/// at most 32,640.
#[derive(Clone, Copy, Debug, PartialEq, Eq, PartialOrd, Ord, Hash)]
pub enum Stopped {
    /// The symbols satisfy every check after this many check updates, and after no fewer.
    Found(u16),
    /// The symbols satisfy every check at no moment up to this many check updates, M times I.
    NotFound(u16),
}

impl Stopped {
    /// 0 found, 1 not found, as for an [`Outcome`].
    pub const fn status(self) -> u8 {
        match self {
            Stopped::Found(_) => 0,
            Stopped::NotFound(_) => 1,
        }
    }

    /// The number of check updates.
    pub const fn updates(self) -> u16 {
        match self {
            Stopped::Found(updates) | Stopped::NotFound(updates) => updates,
        }
    }
}

/// The answer of a call whose value is the number of bytes written.
pub(crate) fn written(result: u32) -> Result<usize, Refusal> {
    match halves(result) {
        (0, value) => Ok(usize::from(value)),
        (number, _) => Err(Refusal::from(number)),
    }
}

/// The answer of a call whose value is an element of the field.
pub(crate) fn element(result: u32) -> Result<u8, Refusal> {
    match halves(result) {
        (0, value) => Ok(low_byte(value)),
        (number, _) => Err(Refusal::from(number)),
    }
}

/// The answer of a call whose value is t.
pub(crate) fn outcome(result: u32) -> Result<Outcome, Refusal> {
    match halves(result) {
        (0, value) => Ok(Outcome::Found(low_byte(value))),
        (1, value) => Ok(Outcome::NotFound(low_byte(value))),
        (number, _) => Err(Refusal::from(number)),
    }
}

/// The answer of a call whose value is the number of check updates.
pub(crate) fn stopped(result: u32) -> Result<Stopped, Refusal> {
    match halves(result) {
        (0, value) => Ok(Stopped::Found(value)),
        (1, value) => Ok(Stopped::NotFound(value)),
        (number, _) => Err(Refusal::from(number)),
    }
}

/// Document 01's number, and the value.
fn halves(result: u32) -> (u16, u16) {
    let [first, second, third, fourth] = result.to_be_bytes();
    (
        u16::from_be_bytes([first, second]),
        u16::from_be_bytes([third, fourth]),
    )
}

/// An element and t are below 256, so this byte is the whole value.
fn low_byte(value: u16) -> u8 {
    let [_, low] = value.to_be_bytes();
    low
}

#[cfg(test)]
mod tests {
    use super::*;

    #[test]
    fn number_and_value_are_the_two_halves() {
        assert_eq!(halves(0), (0, 0));
        assert_eq!(halves(0x0001_00FF), (1, 255));
        assert_eq!(halves(0x0010_0000), (16, 0));
        assert_eq!(halves(0xFFFE_FFFD), (0xFFFE, 0xFFFD));
    }

    #[test]
    fn values() {
        assert_eq!(written(0x4000), Ok(16_384));
        assert_eq!(element(0x3F), Ok(63));
        assert_eq!(outcome(0), Ok(Outcome::Found(0)));
        assert_eq!(outcome(0xFF), Ok(Outcome::Found(255)));
        assert_eq!(outcome(0x0001_0003), Ok(Outcome::NotFound(3)));
        assert_eq!(stopped(0), Ok(Stopped::Found(0)));
        assert_eq!(stopped(0x7F7F), Ok(Stopped::Found(32_639)));
        assert_eq!(stopped(0x0001_7F80), Ok(Stopped::NotFound(32_640)));
    }

    #[test]
    fn refusals_of_every_call() {
        for refusal in Refusal::ALL {
            let result = u32::from(refusal.number()) << 16;
            assert_eq!(written(result), Err(refusal));
            assert_eq!(element(result), Err(refusal));
            assert_eq!(outcome(result), Err(refusal));
            assert_eq!(stopped(result), Err(refusal));
        }
    }

    #[test]
    fn status_with_iterations_or_updates() {
        assert_eq!(Outcome::Found(7).status(), 0);
        assert_eq!(Outcome::NotFound(7).status(), 1);
        assert_eq!(Outcome::Found(7).iterations(), 7);
        assert_eq!(Outcome::NotFound(255).iterations(), 255);
        assert_eq!(Stopped::Found(7).status(), 0);
        assert_eq!(Stopped::NotFound(7).status(), 1);
        assert_eq!(Stopped::Found(7).updates(), 7);
        assert_eq!(Stopped::NotFound(32_640).updates(), 32_640);
    }

    /// No result makes the wrapper panic, not even one that the proved library never gives.
    #[test]
    fn every_number_is_an_answer() {
        for number in 0..=u16::MAX {
            let result = u32::from(number) << 16 | 0xFFFF;
            assert_eq!(written(result).is_ok(), number == 0);
            assert_eq!(element(result).is_ok(), number == 0);
            assert_eq!(outcome(result).is_ok(), number <= 1);
            assert_eq!(stopped(result).is_ok(), number <= 1);
        }
    }
}
