//! Encoding, check by check: the symbol of a check's own column is the sum of its other terms, divided by
//! its own weight.

use super::code::Code;
use super::products::product;
use crate::accepted::Refusal;

/// The inverse of h in the field of q elements, at q + h.
const INVERSES: [u8; 128] = inverses();

/// The code line's refusals, 17, 18, 2. The answer is N.
#[inline(never)]
pub fn encode(code: &[u8], message: &[u8], symbols: &mut [u8]) -> Result<usize, Refusal> {
    let code = Code::read(code)?;
    if !has_form(&code) {
        return Err(17);
    }
    let all_below_q = message.iter().all(|&symbol| symbol >> code.rule.p == 0);
    if message.len() + code.m != code.n || !all_below_q {
        return Err(18);
    }
    if symbols.len() < code.n {
        return Err(2);
    }
    symbols[..message.len()].copy_from_slice(message);
    for (place, (columns, weights)) in (message.len()..).zip(code.checks()) {
        symbols[place] = own_symbol(&code, columns, weights, symbols);
    }
    Ok(code.n)
}

/// "N exceeds M and check m, counted from 0, contains column N - M + m and no higher one": columns rise, so
/// it is the last.
fn has_form(code: &Code) -> bool {
    let mut checks = (code.n.saturating_sub(code.m)..).zip(code.checks());
    code.n > code.m
        && checks.all(|(own, (columns, _))| {
            let last = columns.last();
            last.is_some_and(|&column| usize::from(column) == own)
        })
}

/// The symbol of the last column, from those of the others.
fn own_symbol(code: &Code, columns: &[u16], weights: &[u8], symbols: &[u8]) -> u8 {
    let p = code.rule.p;
    // No factor is refused.
    let times = |a, b| product(p, a, b).unwrap_or(0);
    let Some((&own, others)) = weights.split_last() else {
        return 0;
    };
    let terms = columns.iter().zip(others);
    let sum = terms.fold(0, |sum, (&column, &weight)| {
        sum ^ times(weight, symbols[usize::from(column)])
    });
    times(INVERSES[code.rule.q + usize::from(own)], sum)
}

/// The table of inverses, by every product of every field.
const fn inverses() -> [u8; 128] {
    let mut table = [0; 128];
    let mut p = 2;
    while p <= 6 {
        let q = 1 << p;
        let mut a: u8 = 1;
        while a < q {
            let mut b: u8 = 1;
            while b < q {
                if matches!(product(p, a, b), Ok(1)) {
                    table[q as usize + a as usize] = b;
                }
                b += 1;
            }
            a += 1;
        }
        p += 1;
    }
    table
}
