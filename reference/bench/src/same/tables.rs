//! The tables over the columns before and after each one: k of them, with at most 1 to k deviations.

use super::joins::Turns;
use super::lanes::{better, Block, LANES};
use super::rule::{Rule, MOST_BLOCKS, MOST_DEVIATIONS};

/// Fills k tables for each column. The last of column n's is then S_n: the best choices of the other
/// columns. `room` is for the copies of one table.
pub fn sweep(rule: Rule, lines: &[Block], after: &mut [Block], room: &mut [Block]) {
    let columns = lines.len() / rule.blocks();
    backward(rule, columns, lines, after, room);
    forward(rule, columns, lines, after, room);
}

/// S_n of each column.
pub fn sent_rows(
    rule: Rule,
    after: &[Block],
) -> impl DoubleEndedIterator<Item = &[Block]> + ExactSizeIterator {
    let last = (rule.k - 1) * rule.blocks();
    let columns = after.chunks_exact(rule.k * rule.blocks());
    columns.map(move |tables| &tables[last..])
}

/// The tables after each column but the last.
fn backward(rule: Rule, columns: usize, lines: &[Block], after: &mut [Block], room: &mut [Block]) {
    let (blocks, width) = (rule.blocks(), rule.k * rule.blocks());
    let last = columns - 1;
    begin(
        &lines[last * blocks..],
        &mut after[(last - 1) * width..][..width],
    );
    for n in (1..last).rev() {
        let (earlier, later) = after.split_at_mut(n * width);
        let tables = &mut earlier[(n - 1) * width..];
        copy(later, tables);
        grow(rule, &lines[n * blocks..][..blocks], tables, room);
    }
}

/// S_n of each column but the first, where it stands already: nothing is before it.
fn forward(rule: Rule, columns: usize, lines: &[Block], after: &mut [Block], room: &mut [Block]) {
    let (blocks, width) = (rule.blocks(), rule.k * rule.blocks());
    let mut before = [[0; LANES]; MOST_DEVIATIONS * MOST_BLOCKS];
    let before = &mut before[..width];
    begin(&lines[..blocks], before);
    let mut steps = lines
        .chunks_exact(blocks)
        .zip(after.chunks_exact_mut(width))
        .skip(1);
    for (line, after) in steps.by_ref().take(columns - 2) {
        pass(rule, line, before, after, room);
    }
    if let Some((_, after)) = steps.next() {
        copy(&before[width - blocks..], &mut after[width - blocks..]);
    }
}

/// Over one column each table is its line.
fn begin(line: &[Block], tables: &mut [Block]) {
    for table in tables.chunks_exact_mut(line.len()) {
        copy(line, table);
    }
}

/// One column more. From the last table to the first: each still lacks the column where the next one
/// takes it.
fn grow(rule: Rule, line: &[Block], tables: &mut [Block], room: &mut [Block]) {
    let blocks = line.len();
    for j in (1..rule.k).rev() {
        let (fewer, table) = tables.split_at_mut(j * blocks);
        let turns = Turns::new(rule, &fewer[(j - 1) * blocks..], room);
        turns.join(line, &mut table[..blocks]);
    }
    raise(line, &mut tables[..blocks]);
}

/// One column in the forward sweep: S_n in place of the last table after it, and the tables before it
/// grow. The turns of a table serve both.
fn pass(rule: Rule, line: &[Block], before: &mut [Block], after: &mut [Block], room: &mut [Block]) {
    let blocks = line.len();
    let (after, sent) = after.split_at_mut((rule.k - 1) * blocks);
    raise(&before[(rule.k - 1) * blocks..], sent);
    for (j, after) in (1..rule.k).rev().zip(after.chunks_exact(blocks)) {
        let (fewer, table) = before.split_at_mut(j * blocks);
        let turns = Turns::new(rule, &fewer[(j - 1) * blocks..], room);
        turns.join(after, sent);
        turns.join(line, &mut table[..blocks]);
    }
    raise(line, &mut before[..blocks]);
}

/// `to` becomes as many blocks of `from`: a copy of a few blocks is not worth a call.
#[inline(always)]
fn copy(from: &[Block], to: &mut [Block]) {
    for (to, from) in to.iter_mut().zip(from) {
        *to = *from;
    }
}

/// `best` takes in a table.
#[inline(always)]
fn raise(table: &[Block], best: &mut [Block]) {
    for (best, block) in best.iter_mut().zip(table) {
        *best = better(*best, *block);
    }
}
