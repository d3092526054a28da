//! A record's groups as lists over the rows.

use super::lanes::{lanes, where_is, Block, LANES};
use super::rule::{Rule, MOST_BLOCKS, MOST_DEVIATIONS};

/// E, then column and S of the first pair, of the second and so on, in costs. Rows that no group fills have
/// E = 0 and no pair.
pub struct Lists {
    rule: Rule,
    extra: [Block; MOST_BLOCKS],
    columns: [Block; MOST_DEVIATIONS * MOST_BLOCKS],
    sent: [Block; MOST_DEVIATIONS * MOST_BLOCKS],
}

impl Lists {
    /// The lists of a record's groups.
    pub fn read(rule: Rule, groups: &[u8]) -> Lists {
        let mut lists = Lists {
            rule,
            extra: [[0; LANES]; MOST_BLOCKS],
            columns: [[255; LANES]; MOST_DEVIATIONS * MOST_BLOCKS],
            sent: [[0; LANES]; MOST_DEVIATIONS * MOST_BLOCKS],
        };
        let extra = lists.extra.as_flattened_mut();
        let columns = lists.columns.as_flattened_mut();
        let sent = lists.sent.as_flattened_mut();
        for (a, group) in (1..).zip(groups.chunks_exact(rule.group())) {
            extra[a] = group[0];
            let (pairs, _) = group[1..].as_chunks();
            for (j, pair) in pairs.iter().enumerate() {
                [columns[j * rule.l + a], sent[j * rule.l + a]] = *pair;
            }
        }
        lists
    }

    /// Whether every pair is unused, or has a column below d and above that of the pair before it, and
    /// an S above E.
    pub fn in_order(&self, d: u8) -> bool {
        let mut faults = [0; LANES];
        let blocks = self.rule.blocks();
        for (v, extra) in self.extra[..blocks].iter().enumerate() {
            let mut low = [0; LANES];
            for at in (0..self.rule.k).map(|j| j * blocks + v) {
                let (columns, sent) = (&self.columns[at], &self.sent[at]);
                faults = lanes(|i| faults[i] | fault(columns[i], sent[i], extra[i], low[i], d));
                low = lanes(|i| columns[i].saturating_add(1));
            }
        }
        faults == [0; LANES]
    }

    /// "the S beside n if a's pairs list n, else E(a)", for each row a.
    pub fn column(&self, n: u8, rows: &mut [Block]) {
        let blocks = self.rule.blocks();
        for (v, (rows, &extra)) in rows.iter_mut().zip(&self.extra).enumerate() {
            let mut costs = extra;
            for at in (0..self.rule.k).rev().map(|j| j * blocks + v) {
                costs = where_is(self.columns[at], n, self.sent[at], costs);
            }
            *rows = costs;
        }
    }
}

/// 1 for a pair that is not in order; `low` is 0, or 1 more than the column of the pair before it, and at
/// most 255.
fn fault(column: u8, sent: u8, extra: u8, low: u8, d: u8) -> u8 {
    let unused = (column == 255) & (sent == 0);
    let used = (low <= column) & (column < d) & (extra < sent);
    u8::from(!(unused | used))
}
