//! Damaged variants of accepted inputs. Each function changes its input in one place, and now and
//! then in a second one, so that the order of refusals matters. Most variants are refused; a change
//! can also leave another accepted input.

use super::{CheckSample, Generator};
use crate::code::{code_line, EDGE_LENGTH, HEADER_LENGTH};
use crate::rule::Rule;

/// Applies `change` once, and once in three times a second time.
fn damaged<T: Clone>(
    generator: &mut Generator,
    input: &T,
    change: impl Fn(&mut Generator, &mut T),
) -> T {
    let mut input = input.clone();
    change(generator, &mut input);
    if generator.once_in(3) {
        change(generator, &mut input);
    }
    input
}

/// Removes some bytes at the end, adds some, or replaces one.
fn change_bytes(generator: &mut Generator, bytes: &mut Vec<u8>) {
    match generator.below(3) {
        0 => bytes.truncate(generator.below(bytes.len() + 1)),
        1 => {
            let count = generator.between(1..=4);
            bytes.extend(generator.bytes(count));
        }
        _ => {
            let value = generator.byte(0..=255);
            replace(generator, bytes, value);
        }
    }
}

/// Replaces one byte, if there is any.
fn replace(generator: &mut Generator, bytes: &mut [u8], value: u8) {
    if !bytes.is_empty() {
        bytes[generator.below(bytes.len())] = value;
    }
}

/// A first byte that is refused by 6, or now and then accepted: those next to the accepted ones, those
/// with p in the low digit and a wrong high digit, and every other.
fn damaged_first_byte(generator: &mut Generator) -> u8 {
    match generator.below(3) {
        0 => 16 * generator.byte(0..=3) + generator.one_of(&[0, 1, 7, 8, 15]),
        1 => 16 * generator.byte(0..=15) + generator.byte(2..=6),
        _ => generator.byte(0..=255),
    }
}

/// A code line with changes that aim at each of the refusals 5 to 11. A second change, to a line
/// that is no longer accepted, is at any place.
pub fn damaged_code(generator: &mut Generator, line: &[u8]) -> Vec<u8> {
    damaged(generator, &line.to_vec(), |generator, line| {
        let kind = generator.below(7);
        match (kind, code_line(line)) {
            (0, Ok(_)) => line[0] = damaged_first_byte(generator),
            (1, Ok(_)) => match generator.below(3) {
                0 => line[1..3].copy_from_slice(&[0, 0]),
                1 => line[1..3].copy_from_slice(&[1, 1]),
                _ => line[3] = generator.one_of(&[0, 129, 255]),
            },
            (2, Ok(_)) => match generator.below(2) {
                0 => line[4] = generator.one_of(&[0, 17, 255]),
                _ => line[5] = 0,
            },
            (3..=5, Ok(code)) => {
                let target = generator.below(code.m);
                let before = code.checks[..target].iter();
                let edges: usize = before.map(|check| check.columns.len()).sum();
                let start = HEADER_LENGTH + target + EDGE_LENGTH * edges;
                let edge = generator.below(code.checks[target].columns.len());
                let edge_start = start + 1 + EDGE_LENGTH * edge;
                match kind {
                    3 => change_degree(generator, line, start),
                    4 => line[edge_start + generator.below(2)] = generator.byte(0..=255),
                    _ => line[edge_start + 2] = generator.one_of(&[0, 4, 8, 16, 32, 64, 255]),
                }
            }
            _ => change_bytes(generator, line),
        }
    })
}

/// Changes the degree byte at this place. Where the check has more edges than the new degree says,
/// they are taken off once in two times, so that nothing but the degree is wrong, or nothing at all.
fn change_degree(generator: &mut Generator, line: &mut Vec<u8>, place: usize) {
    let before = line[place];
    let after = generator.one_of(&[0, 1, 2, 3, 32, 33, 255]);
    line[place] = after;
    if after < before && generator.once_in(2) {
        let [from, to] = [after, before].map(|edges| place + 1 + EDGE_LENGTH * usize::from(edges));
        line.drain(from..to);
    }
}

/// A frame or a check's costs, column by column with `q` costs each, with changes that aim at 12
/// and 13.
pub fn damaged_frame(generator: &mut Generator, q: usize, frame: &[u8]) -> Vec<u8> {
    damaged(generator, &frame.to_vec(), |generator, frame| {
        let columns = frame.len() / q;
        if columns > 0 && generator.once_in(2) {
            let start = q * generator.below(columns);
            for cost in &mut frame[start..start + q] {
                *cost = (*cost).max(1);
            }
        } else {
            change_bytes(generator, frame);
        }
    })
}

/// An accepted check's input with changes that aim at 6, 9, 11, 12 and 13.
pub fn damaged_check(generator: &mut Generator, sample: &CheckSample) -> CheckSample {
    let q = sample.q();
    damaged(generator, sample, |generator, sample| {
        match generator.below(5) {
            0 => sample.first = damaged_first_byte(generator),
            1 => {
                // 256 and 258 would be 0 and 2 in a byte.
                let degree = generator.one_of(&[0, 1, 2, 3, 32, 33, 256, 258]);
                sample.weights.resize(degree, 1);
                // Once in two times the costs have the new degree too.
                if generator.once_in(2) {
                    sample.costs.resize(degree * q, 0);
                }
            }
            2 => {
                let weight = generator.one_of(&[0, 4, 8, 16, 32, 64, 255]);
                replace(generator, &mut sample.weights, weight);
            }
            _ => sample.costs = damaged_frame(generator, q, &sample.costs),
        }
    })
}

/// A record of the rule with changes that aim at each part of 16.
pub fn damaged_record(
    generator: &mut Generator,
    rule: Rule,
    degree: usize,
    record: &[u8],
) -> Vec<u8> {
    let k = rule.deviations();
    damaged(generator, &record.to_vec(), |generator, record| {
        let entries = record.len().saturating_sub(degree) / (1 + 2 * k);
        if entries == 0 || generator.once_in(4) {
            return change_bytes(generator, record);
        }
        let entry = degree + (1 + 2 * k) * generator.below(entries);
        let pair = entry + 1 + 2 * generator.below(k);
        match generator.below(7) {
            0 => record[generator.below(degree)] = generator.one_of(&[4, 8, 16, 32, 64, 255]),
            1 => record[pair] = generator.byte(0..=33),
            2 => record[pair] = 0xFF,
            3 => record[pair + 1] = generator.byte(0..=255),
            4 => record[pair + 1] = record[entry],
            5 => change_length(generator, record, |pairs| {
                degree + (1 + 2 * pairs) * (rule.field().size() - 1)
            }),
            _ => {
                let other = entry + 1 + 2 * generator.below(k);
                record.swap(pair, other);
                record.swap(pair + 1, other + 1);
            }
        }
    })
}

/// Makes a record a byte shorter or longer, or as long as one with another number of pairs.
fn change_length(
    generator: &mut Generator,
    record: &mut Vec<u8>,
    of_pairs: impl Fn(usize) -> usize,
) {
    let length = match generator.below(5) {
        0 => record.len() - 1,
        1 => record.len() + 1,
        pairs => of_pairs(pairs - 1),
    };
    record.resize(length, 0);
}

/// A message of symbols below `q` with changes that aim at both causes of 18.
pub fn damaged_message(generator: &mut Generator, q: usize, message: &[u8]) -> Vec<u8> {
    let least = u8::try_from(q).expect("q is at most 64");
    damaged(
        generator,
        &message.to_vec(),
        |generator, message| match generator.below(6) {
            0 => message.truncate(generator.below(message.len() + 1)),
            1 => message.truncate(message.len().saturating_sub(1)),
            2 => message.push(generator.byte(0..=least - 1)),
            3 => message.resize(message.len() + generator.between(1..=300), 0),
            4 => replace(generator, message, least),
            _ => {
                let symbol = generator.byte(least..=255);
                replace(generator, message, symbol);
            }
        },
    )
}

/// The text of a line with changes that aim at 14 and 15.
pub fn damaged_text(generator: &mut Generator, text: &[u8]) -> Vec<u8> {
    damaged(
        generator,
        &text.to_vec(),
        |generator, text| match generator.below(8) {
            0 => text.push(b'\r'),
            1 => text.push(generator.one_of(b"0123456789ABCDEF")),
            2 => text.make_ascii_lowercase(),
            3 => text.resize(generator.one_of(&[32_767, 32_768, 32_769, 65_536]), b'0'),
            4 => text.truncate(generator.below(text.len() + 1)),
            _ => {
                let byte = generator.one_of(b"/:@GZ`agz{ +-\0\x7F\xFF\r\t\n");
                replace(generator, text, byte);
            }
        },
    )
}
