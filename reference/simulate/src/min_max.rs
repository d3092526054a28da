//! The baseline's rule for one check: the Trellis Min-Max rule of source document 003, Algorithm 5
//! ("Simplified TMM Algorithm") with step 5 as Algorithm 9 words it, n_r = 1 and n_c = 2. The weights
//! are handled as document 01 does, so row a holds the deviations with h_n times (x + z_n) = a.

use crate::layered::{hard_decision, CheckRule};

/// The largest q.
const MOST_ROWS: usize = 64;
/// Stands for a cost where a row has no entry yet.
const NONE: u8 = u8::MAX;

/// The Trellis Min-Max rule.
#[derive(Clone, Copy, Debug, Default)]
pub struct MinMax;

/// Step 3, "function psi extracts the two most reliable messages for each symbol": m1(a), its
/// column, and m2(a).
#[derive(Clone, Copy, Debug)]
struct Row {
    least: u8,
    column: usize,
    second: u8,
}

/// Step 4: the extra column at a, with the columns in which its path deviates; one deviation stands
/// as the same column twice.
#[derive(Clone, Copy, Debug)]
struct Path {
    cost: u8,
    columns: [usize; 2],
}

impl CheckRule for MinMax {
    fn send(&mut self, q: usize, terms: &[u8], brought: &[u8], sent: &mut [u8]) {
        let columns = || terms.chunks_exact(q).zip(brought.chunks_exact(q));
        // h_n times z_n.
        let hard_term = |(terms, costs): (&[u8], &[u8])| terms[hard_decision(costs)];
        // Step 2, "beta".
        let syndrome = columns().map(hard_term).fold(0, |sum, term| sum ^ term);

        let rows = rows(columns());
        let rows = &rows[..q];
        let mut paths = [None; MOST_ROWS];
        for (a, path) in paths[..q].iter_mut().enumerate().skip(1) {
            *path = Some(best_path(rows, a));
        }
        for ((n, column), sent) in columns().enumerate().zip(sent.chunks_exact_mut(q)) {
            // Step 6: "R(a + beta + z_n)" is the message at the x with h_n times x + s_n = a.
            let shift = syndrome ^ hard_term(column);
            for (sent, &term) in sent.iter_mut().zip(column.0) {
                let a = usize::from(term ^ shift);
                *sent = paths[a].map_or(0, |path| message(rows[a], path, n));
            }
        }
    }
}

/// Steps 1 and 3.
fn rows<'a>(columns: impl Iterator<Item = (&'a [u8], &'a [u8])>) -> [Row; MOST_ROWS] {
    let empty = Row {
        least: NONE,
        column: usize::MAX,
        second: NONE,
    };
    let mut rows = [empty; MOST_ROWS];
    for (n, (terms, costs)) in columns.enumerate() {
        let hard_term = terms[hard_decision(costs)];
        for (&term, &cost) in terms.iter().zip(costs) {
            let row = &mut rows[usize::from(term ^ hard_term)];
            if cost < row.least || row.column == usize::MAX {
                row.second = row.least;
                row.least = cost;
                row.column = n;
            } else {
                row.second = row.second.min(cost);
            }
        }
    }
    rows
}

/// Step 4: the least, over the paths with one or two deviations that use only the least entries of
/// the rows, of the greatest cost on the path. "the reliability arising from the same trellis stage
/// are discarded". Of equal paths the first stays, one deviation before two.
fn best_path(rows: &[Row], a: usize) -> Path {
    let mut best = Path {
        cost: rows[a].least,
        columns: [rows[a].column; 2],
    };
    for b in 1..rows.len() {
        let (first, second) = (rows[b], rows[a ^ b]);
        // Each pair of rows once; row 0 holds no deviation.
        if a ^ b <= b || first.column == second.column {
            continue;
        }
        let cost = first.least.max(second.least);
        if cost < best.cost {
            best = Path {
                cost,
                columns: [first.column, second.column],
            };
        }
    }
    best
}

/// Step 5: "the extra column information" where the path does not deviate in the column, else
/// "(i) if this path has only one deviation, the second minimum m2(a)", "(ii) if this path has two
/// deviations, m1(a)".
fn message(row: Row, path: Path, n: usize) -> u8 {
    if !path.columns.contains(&n) {
        path.cost
    } else if path.columns[0] == path.columns[1] {
        row.second
    } else {
        row.least
    }
}
