//! The rows of one check: for each a, the three cheapest entries, filled column by column. An
//! entry is one number, its key: cost times 256 plus column.

use super::field;
use super::minima::Minima;
use crate::decision::Decision;

/// The three rising keys of each row, in three slices of q.
pub struct Rows<'a> {
    /// The least keys.
    pub first: &'a mut [u16],
    /// The second keys.
    pub second: &'a mut [u16],
    /// The third keys.
    pub third: &'a mut [u16],
}

impl Rows<'_> {
    /// No key in any row.
    pub fn clear(&mut self) {
        self.first.fill(65_533);
        self.second.fill(65_534);
        self.third.fill(65_535);
    }

    /// Their minima, to search in.
    pub fn minima(&self, columns: usize) -> Minima {
        Minima::new(self.first, self.second, self.third, columns)
    }

    /// All columns: leaves the shifts in `shifts`.
    pub fn fill(
        &mut self,
        p: u8,
        weights: &[u8],
        costs: &[u8],
        row: &mut [u8],
        line: &mut [u16],
        shifts: &mut [u8],
    ) {
        let table = field::table_for(p, weights.len());
        let mut sum = 0;
        let columns = weights.iter().zip(costs.chunks_exact(line.len()));
        for ((n, (&weight, costs)), shift) in (0..).zip(columns).zip(shifts.iter_mut()) {
            field::fill(p, weight, table, row);
            *shift = row[usize::from(Decision::of(costs).symbol)];
            sum ^= *shift;
            scatter(costs, row, *shift, n, line);
            self.merge(line);
        }
        for shift in shifts {
            *shift ^= sum;
        }
    }

    /// One column more: the three least keys of each row.
    fn merge(&mut self, line: &[u16]) {
        let rows = self.first.iter_mut().zip(self.second.iter_mut());
        let rows = rows.zip(self.third.iter_mut());
        for (&key, ((first, second), third)) in line.iter().zip(rows) {
            let middle = key.max(*first);
            let last = middle.max(*second);
            *first = key.min(*first);
            *second = middle.min(*second);
            *third = last.min(*third);
        }
    }
}

/// One column's keys, put into their rows, four at a time: all four are read before the first is written.
fn scatter(costs: &[u8], row: &[u8], hard_term: u8, n: u16, line: &mut [u16]) {
    let (costs, _) = costs.as_chunks::<4>();
    let (row, _) = row.as_chunks::<4>();
    for (costs, terms) in costs.iter().zip(row) {
        let rows = terms.map(|term| usize::from(term ^ hard_term));
        let keys = costs.map(|cost| u16::from(cost) * 256 + n);
        for (row, key) in rows.into_iter().zip(keys) {
            line[row] = key;
        }
    }
}
