//! The minima of the rows: for each column, and for none, the two cheapest keys of each row in the other
//! columns. Both stand in one number: the cheaper key times 65,536 plus the other.

use super::field::MOST;

/// 32 columns, and none.
const PARTS: usize = 33;

/// The minima of all rows, without each column in turn and last without none.
pub struct Minima {
    q: usize,
    columns: usize,
    minima: [u32; PARTS * MOST],
}

impl Minima {
    /// From the three rising keys of each row.
    pub fn new(first: &[u16], second: &[u16], third: &[u16], columns: usize) -> Minima {
        let q = first.len();
        let mut minima = [0; PARTS * MOST];
        for (column, minima) in (0..).zip(minima.chunks_exact_mut(q).take(columns + 1)) {
            let rows = first.iter().zip(second).zip(third);
            for (minima, ((&first, &second), &third)) in minima.iter_mut().zip(rows) {
                *minima = minima_without(first, second, third, column);
            }
        }
        Minima { q, columns, minima }
    }

    /// The minima without a column.
    pub fn without(&self, column: usize) -> &[u32] {
        &self.minima[column * self.q..][..self.q]
    }

    /// The minima that leave no column out: no column has this number.
    pub fn all(&self) -> &[u32] {
        self.without(self.columns)
    }
}

/// Of three rising keys the first two whose column is another.
fn minima_without(first: u16, second: u16, third: u16, column: u16) -> u32 {
    let is_first = first % 256 == column;
    let cheaper = if is_first { second } else { first };
    let other = if is_first || second % 256 == column {
        third
    } else {
        second
    };
    u32::from(cheaper) * 65_536 + u32::from(other)
}
