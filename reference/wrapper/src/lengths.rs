//! How long the slices are, by a code line's first byte, whose [`Rule`] they depend on; they are the same
//! in both editions. The functions answer none for a first byte that is refused, or when N is not above M
//! where a message's length is asked for; a number past every accepted one gives a length that is right
//! or, where that passes the greatest number, the greatest number.

use crate::rule::Rule;

/// "p is 2 to 6, q = 2^p": q at its greatest.
pub const MOST_ELEMENTS: usize = 64;
/// Document 02, §3: "The number of deviations becomes k, 2 or 3".
pub const MOST_DEVIATIONS: usize = 3;
/// Document 02, §1: "Degree becomes 2 to 32."
pub const MOST_DEGREE: usize = 32;
/// "N as two bytes, high first (1 to 256)": also the longest used part of a symbol buffer and of a margin
/// buffer.
pub const MOST_COLUMNS: usize = 256;
/// "M (1 to 128)"
pub const MOST_CHECKS: usize = 128;
/// "All checks together have at most 1,024 edges."
pub const MOST_EDGES: usize = 1_024;

/// Document 02, §9: "channel count not 1 to 8" is refused.
pub const MOST_CHANNELS: usize = 8;

/// The longest record.
pub const MOST_RECORD: usize = MOST_DEGREE + entry(MOST_DEVIATIONS) * (MOST_ELEMENTS - 1);
/// The longest expansion.
pub const MOST_EXPANSION: usize = MOST_DEGREE * MOST_ELEMENTS;
/// The longest frame, and the longest used part of a cost buffer.
pub const MOST_FRAME: usize = MOST_COLUMNS * MOST_ELEMENTS;
/// The longest message.
pub const MOST_MESSAGE: usize = MOST_COLUMNS - 1;
/// The longest used part of a store.
pub const MOST_STORE: usize =
    MOST_EDGES + MOST_CHECKS * entry(MOST_DEVIATIONS) * (MOST_ELEMENTS - 1);
/// The longest accepted code line.
pub const MOST_CODE: usize = code(MOST_CHECKS, MOST_EDGES);
/// The longest accepted text of a line: "more than 32,768 bytes" are refused.
pub const MOST_LINE: usize = 32_768;

/// Document 02, §3: "A record then has 1 + 2k bytes a symbol".
const fn entry(deviations: usize) -> usize {
    1 + 2 * deviations
}

/// q, the number of elements.
pub const fn field(first: u8) -> Option<usize> {
    match Rule::of(first) {
        Some(rule) => Some(rule.elements()),
        None => None,
    }
}

/// k, the most deviations of a choice.
pub const fn deviations(first: u8) -> Option<usize> {
    match Rule::of(first) {
        Some(rule) => Some(rule.deviations()),
        None => None,
    }
}

/// The bytes of a record: "Length: d + 5(q - 1)", with 1 + 2k in the place of 5.
pub const fn record(first: u8, degree: usize) -> Option<usize> {
    store(first, 1, degree)
}

/// The bytes of an expansion: "d times q unscaled bytes".
pub const fn expansion(first: u8, degree: usize) -> Option<usize> {
    frame(first, degree)
}

/// The bytes of a code line: six, then one for the degree of each check and three for each edge.
pub const fn code(checks: usize, edges: usize) -> usize {
    let of_edges = edges.saturating_mul(3);
    of_edges.saturating_add(checks).saturating_add(6)
}

/// The costs of a frame, and the used part of a cost buffer: "N times q costs".
pub const fn frame(first: u8, columns: usize) -> Option<usize> {
    match field(first) {
        Some(q) => Some(columns.saturating_mul(q)),
        None => None,
    }
}

/// The symbols of a message: "N - M message symbols".
pub const fn message(columns: usize, checks: usize) -> Option<usize> {
    if columns > checks {
        Some(columns - checks)
    } else {
        None
    }
}

/// The used part of a store: "as many bytes as the M record lengths add up to".
pub const fn store(first: u8, checks: usize, edges: usize) -> Option<usize> {
    match Rule::of(first) {
        Some(rule) => {
            let of_check = entry(rule.deviations()) * (rule.elements() - 1);
            let entries = checks.saturating_mul(of_check);
            Some(edges.saturating_add(entries))
        }
        None => None,
    }
}

#[cfg(test)]
mod tests {
    use super::*;

    #[test]
    fn of_small_inputs() {
        assert_eq!(record(2, 2), Some(2 + 15));
        assert_eq!(expansion(2, 2), Some(8));
        assert_eq!(record(2, 3), Some(3 + 15));
        assert_eq!(expansion(2, 3), Some(12));
        assert_eq!(record(0x22, 3), Some(3 + 21));
        assert_eq!(expansion(0x22, 3), Some(12));
        assert_eq!(frame(3, 5), Some(40));
        assert_eq!(frame(0x23, 5), Some(40));
        assert_eq!(message(5, 2), Some(3));
        assert_eq!(message(2, 1), Some(1));
        assert_eq!(message(2, 2), None);
        assert_eq!(message(2, 3), None);
        assert_eq!(code(1, 3), 16);
        // Two checks, of degree 3 and 4.
        for first in [0x03, 0x13, 0x23, 0x33] {
            let both = record(first, 3).zip(record(first, 4)).map(|(a, b)| a + b);
            assert_eq!(store(first, 2, 7), both);
        }
    }

    #[test]
    fn at_the_limits() {
        assert_eq!(field(0x26), Some(MOST_ELEMENTS));
        assert_eq!(deviations(0x26), Some(MOST_DEVIATIONS));
        assert_eq!(record(0x26, MOST_DEGREE), Some(MOST_RECORD));
        assert_eq!(expansion(0x26, MOST_DEGREE), Some(MOST_EXPANSION));
        assert_eq!(frame(0x26, MOST_COLUMNS), Some(MOST_FRAME));
        assert_eq!(message(MOST_COLUMNS, 1), Some(MOST_MESSAGE));
        assert_eq!(store(0x26, MOST_CHECKS, MOST_EDGES), Some(MOST_STORE));
        // As the header has them.
        assert_eq!((MOST_RECORD, MOST_STORE), (473, 57_472));
        assert_eq!(MOST_CODE, 3_206);
        assert_eq!(record(6, MOST_DEGREE), Some(347));
        assert_eq!(store(6, MOST_CHECKS, MOST_EDGES), Some(41_344));
        // The longest frame fills the longest line.
        assert_eq!(2 * MOST_FRAME, MOST_LINE);
    }

    #[test]
    fn no_number_panics() {
        for first in 0..=u8::MAX {
            let accepted = Rule::of(first).is_some();
            assert_eq!(field(first).is_some(), accepted);
            assert_eq!(deviations(first).is_some(), accepted);
            for number in [0, 1, usize::MAX / 64 + 1, usize::MAX] {
                assert_eq!(record(first, number).is_some(), accepted);
                assert_eq!(expansion(first, number).is_some(), accepted);
                assert_eq!(store(first, number, number).is_some(), accepted);
            }
        }
        assert_eq!(code(usize::MAX, usize::MAX), usize::MAX);
    }

    #[test]
    fn q_and_k_of_each_accepted_first_byte() {
        for p in 2..=6 {
            for (digit, k) in [(0x00, 2), (0x10, 2), (0x20, 3), (0x30, 3)] {
                let first = digit + p;
                assert_eq!(field(first).zip(deviations(first)), Some((1 << p, k)));
                assert_eq!(record(first, 4), record(first ^ 0x10, 4));
            }
        }
    }
}
