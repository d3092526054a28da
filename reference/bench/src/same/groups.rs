//! E and the pairs of each row, from S_n of every column.

use super::lanes::{better, where_below, Block, LANES};
use super::rule::{Rule, MOST_BLOCKS, MOST_DEVIATIONS};
use super::tables::sent_rows;

/// Lists over the rows, in rests: E, then column and S of the first pair, of the second and so on. An
/// unused pair is 255, 255.
struct Lists {
    extra: [Block; MOST_BLOCKS],
    columns: [Block; MOST_DEVIATIONS * MOST_BLOCKS],
    sent: [Block; MOST_DEVIATIONS * MOST_BLOCKS],
}

/// The bytes of each a from 1 on.
pub fn put(rule: Rule, after: &[Block], out: &mut [u8]) {
    let mut lists = Lists {
        extra: [[0; LANES]; MOST_BLOCKS],
        columns: [[255; LANES]; MOST_DEVIATIONS * MOST_BLOCKS],
        sent: [[255; LANES]; MOST_DEVIATIONS * MOST_BLOCKS],
    };
    for sent in sent_rows(rule, after) {
        for (extra, sent) in lists.extra.iter_mut().zip(sent) {
            *extra = better(*extra, *sent);
        }
    }
    for (n, sent) in sent_rows(rule, after).enumerate().rev() {
        lists.add(rule, n as u8, sent);
    }
    lists.put(rule, out);
}

impl Lists {
    /// Column n in front of the pairs of each row where its cost is above E: its rest is below.
    fn add(&mut self, rule: Rule, n: u8, sent: &[Block]) {
        let blocks = rule.blocks();
        for (v, (&sent, &extra)) in sent.iter().zip(&self.extra).enumerate() {
            for to in (1..rule.k).rev().map(|j| j * blocks + v) {
                let from = to - blocks;
                self.columns[to] = where_below(sent, extra, self.columns[from], self.columns[to]);
                self.sent[to] = where_below(sent, extra, self.sent[from], self.sent[to]);
            }
            self.columns[v] = where_below(sent, extra, [n; LANES], self.columns[v]);
            self.sent[v] = where_below(sent, extra, sent, self.sent[v]);
        }
    }

    /// The group bytes.
    fn put(&self, rule: Rule, out: &mut [u8]) {
        let extra = self.extra.as_flattened();
        let (columns, sent) = (self.columns.as_flattened(), self.sent.as_flattened());
        for (a, group) in (1..).zip(out.chunks_exact_mut(rule.group())) {
            group[0] = 255 - extra[a];
            let (pairs, _) = group[1..].as_chunks_mut();
            for (j, pair) in pairs.iter_mut().enumerate() {
                let at = j * rule.l + a;
                *pair = [columns[at], 255 - sent[at]];
            }
        }
    }
}
