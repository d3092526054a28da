//! The cheapest choices of one check, from the minima of its rows. A pair is the sum of two keys:
//! the cost times 256, plus both columns. A choice is a pair times 64, plus the row of its first key.

use super::minima::Minima;

/// The bytes of each a in a record.
pub const GROUP: usize = 5;

/// The bytes of each a from 1 on.
pub fn put_groups(minima: &Minima, out: &mut [u8]) {
    let (groups, _) = out.as_chunks_mut();
    let mut top = 1;
    for (a, group) in (1..).zip(groups) {
        if a == 2 * top {
            top = a;
        }
        *group = group_of(minima, a, top);
    }
}

/// The bytes of a: only the columns of a cheapest choice can have S above E.
fn group_of(minima: &Minima, a: usize, top: usize) -> [u8; GROUP] {
    let choice = best(minima.all(), a, top);
    let extra = cost(choice);
    let (i, j) = columns(minima.all(), a, (choice % 64) as usize);
    let (m, n) = (i.min(j), i.max(j));
    let sent = |column: u8| cost(best(minima.without(usize::from(column)), a, top));
    let s = sent(m);
    let t = if m == n { extra } else { sent(n) };
    match (extra < s, extra < t) {
        (true, true) => [extra, m, s, n, t],
        (true, false) => [extra, m, s, 0xFF, 0x00],
        (false, true) => [extra, n, t, 0xFF, 0x00],
        (false, false) => [extra, 0xFF, 0x00, 0xFF, 0x00],
    }
}

/// The cheapest choice of one or two columns for a. Of rows b and a + b the lower one has the highest bit
/// of a clear: only these are taken as b.
fn best(minima: &[u32], a: usize, top: usize) -> u32 {
    let mut best = minima[a] / 65_536 / 256 * 16_384;
    let mut b = next_clear(top, 0);
    while b < minima.len() {
        best = best.min(pair(minima[b], minima[a ^ b]) * 64 + b as u32);
        b = next_clear(top, b);
    }
    best
}

/// The row after b that has the bit top clear, where b has it clear.
fn next_clear(top: usize, b: usize) -> usize {
    let c = b + 1;
    c + (c & top)
}

/// The cheapest pair of two columns, from the minima of two rows. Both sums are formed first, so that the
/// choice between them takes no jump.
fn pair(u: u32, v: u32) -> u32 {
    let (x, y) = (u / 65_536, u % 65_536);
    let (s, t) = (v / 65_536, v % 65_536);
    let apart = x + s;
    let shared = (x + t).min(y + s);
    if x % 256 == s % 256 {
        shared
    } else {
        apart
    }
}

/// The two columns of a choice for a with row b; one column twice where b is 0.
fn columns(minima: &[u32], a: usize, b: usize) -> (u8, u8) {
    if b == 0 {
        let column = (minima[a] / 65_536) as u8;
        return (column, column);
    }
    let (u, v) = (minima[b], minima[a ^ b]);
    let (x, y) = (u / 65_536, u % 65_536);
    let (s, t) = (v / 65_536, v % 65_536);
    let (left, right) = if x % 256 != s % 256 {
        (x, s)
    } else if x + t <= y + s {
        (x, t)
    } else {
        (y, s)
    };
    (left as u8, right as u8)
}

/// The cost of a choice that fits a byte.
fn cost(choice: u32) -> u8 {
    (choice / 16_384) as u8
}
