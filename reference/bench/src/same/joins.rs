//! Two tables joined: row a of the answer has the best of rows b and a + b over all b, where + is
//! exclusive or.

use super::lanes::{best_of, taken, turned, Block};
use super::rule::Rule;

/// The copies of a table of several blocks.
pub const COPIES: usize = 16;

/// A table in every turn that a join reads.
pub struct Turns<'a> {
    rule: Rule,
    table: &'a [Block],
    copies: &'a [Block],
}

impl<'a> Turns<'a> {
    /// The turns of a table. One block is turned as it is read; for more, copy j has row x + j at x.
    pub fn new(rule: Rule, table: &'a [Block], room: &'a mut [Block]) -> Turns<'a> {
        if table.len() > 1 {
            copy(table, room);
        }
        Turns {
            rule,
            table,
            copies: room,
        }
    }

    /// `best` takes in this table joined with another.
    pub fn join(&self, other: &[Block], best: &mut [Block]) {
        if self.rule.greatest {
            self.join_by::<true>(other, best);
        } else {
            self.join_by::<false>(other, best);
        }
    }

    fn join_by<const GREATEST: bool>(&self, other: &[Block], best: &mut [Block]) {
        if self.table.len() == 1 {
            one_block::<GREATEST>(self.rule.q, self.table, other, best);
        } else {
            several::<GREATEST>(self.copies, other, best);
        }
    }
}

/// The table itself, then as many copies again for each bit.
fn copy(table: &[Block], copies: &mut [Block]) {
    copies[..table.len()].copy_from_slice(table);
    copy_turned::<1>(table.len(), copies);
    copy_turned::<2>(table.len(), copies);
    copy_turned::<4>(table.len(), copies);
    copy_turned::<8>(table.len(), copies);
}

/// BIT copies of `blocks` blocks once more, turned by BIT.
fn copy_turned<const BIT: usize>(blocks: usize, copies: &mut [Block]) {
    let (known, next) = copies.split_at_mut(BIT * blocks);
    for (next, known) in next.iter_mut().zip(known) {
        *next = turned::<BIT>(known);
    }
}

/// Tables of one block, of which q rows are used.
#[inline(never)]
fn one_block<const GREATEST: bool>(q: usize, table: &[Block], other: &[Block], best: &mut [Block]) {
    // A copy: the turns of an array of its own stay in registers.
    let block = table[0];
    let (rows, _) = other[0].as_chunks();
    let best = &mut best[0];
    *best = four_rows::<GREATEST>(&rows[0], &block, best);
    if q > 4 {
        let by_4 = turned::<4>(&block);
        *best = four_rows::<GREATEST>(&rows[1], &by_4, best);
        if q > 8 {
            *best = four_rows::<GREATEST>(&rows[2], &turned::<8>(&block), best);
            *best = four_rows::<GREATEST>(&rows[3], &turned::<8>(&by_4), best);
        }
    }
}

/// Four rows with the turn of a block by the first of them.
#[inline(always)]
fn four_rows<const GREATEST: bool>(rows: &[u8; 4], block: &Block, best: &Block) -> Block {
    let by_1 = turned::<1>(block);
    let by_2 = turned::<2>(block);
    let by_3 = turned::<2>(&by_1);
    best_of::<GREATEST>(taken::<GREATEST>(rows), [block, &by_1, &by_2, &by_3], best)
}

/// Tables of several blocks: row b meets block v in copy b % 16, block v + b / 16.
#[inline(never)]
fn several<const GREATEST: bool>(copies: &[Block], other: &[Block], best: &mut [Block]) {
    let blocks = best.len();
    for (turn, rows) in other.iter().enumerate() {
        let (rows, _) = rows.as_chunks();
        for (rows, copies) in rows.iter().zip(copies.chunks_exact(4 * blocks)) {
            let taken = taken::<GREATEST>(rows);
            let (first, others) = copies.split_at(blocks);
            let (second, others) = others.split_at(blocks);
            let (third, fourth) = others.split_at(blocks);
            for (v, best) in best.iter_mut().enumerate() {
                let from = v ^ turn;
                let blocks = [&first[from], &second[from], &third[from], &fourth[from]];
                *best = best_of::<GREATEST>(taken, blocks, best);
            }
        }
    }
}
