//! Products in the field.

use super::lanes::{plus, Block};
use super::rule::Rule;
use crate::accepted::Refusal;

/// "7, 0B, 13, 25, 43 for p = 2 to 6"
const fn polynomial(p: u8) -> u8 {
    match p {
        2 => 0x07,
        3 => 0x0B,
        4 => 0x13,
        5 => 0x25,
        _ => 0x43,
    }
}

/// "doubled by a shift and reduced by the polynomial"
const fn double(q: usize, polynomial: u8, a: u8) -> u8 {
    let shifted = a << 1;
    if shifted as usize & q == 0 {
        shifted
    } else {
        shifted ^ polynomial
    }
}

/// "Product: 6, 11."
pub const fn product(p: u8, a: u8, b: u8) -> Result<u8, Refusal> {
    if !matches!(p, 2..=6) {
        return Err(6);
    }
    if a >> p != 0 || b >> p != 0 {
        return Err(11);
    }
    let (mut doubled, mut left, mut sum) = (a, b, 0);
    while left > 0 {
        sum ^= if left % 2 == 1 { doubled } else { 0 };
        doubled = double(1 << p, polynomial(p), doubled);
        left /= 2;
    }
    Ok(sum)
}

/// The field's polynomial, at hand for the products of several weights.
#[derive(Clone, Copy)]
pub struct Products {
    q: usize,
    polynomial: u8,
}

impl Products {
    /// For the field of a rule.
    pub fn new(rule: Rule) -> Products {
        Products {
            q: rule.q,
            polynomial: polynomial(rule.p),
        }
    }

    /// h times x at x, for each symbol x: four at a time up to sixteen, then block by block.
    pub fn fill(self, h: u8, row: &mut [Block]) {
        let double = |a| double(self.q, self.polynomial, a);
        let by_2 = double(h);
        let four = |first| [first, first ^ h, first ^ by_2, first ^ h ^ by_2];
        let (fours, _) = row[0].as_chunks_mut();
        fours[0] = four(0);
        if self.q == 4 {
            return;
        }
        let by_4 = double(by_2);
        fours[1] = four(by_4);
        if self.q == 8 {
            return;
        }
        let by_8 = double(by_4);
        fours[2] = four(by_8);
        fours[3] = four(by_4 ^ by_8);
        let by_16 = double(by_8);
        let later = [by_16, double(by_16), by_16 ^ double(by_16)];
        let (first, others) = row.split_at_mut(1);
        for (block, term) in others.iter_mut().zip(later) {
            *block = plus(first[0], term);
        }
    }
}
