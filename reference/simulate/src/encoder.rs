//! An encoder for any code, by elimination over its field. The checks are brought to reduced form;
//! each check left then gives the symbol of one column from the symbols of the free columns.

use reference_decoder::sample::Generator;

use crate::code::Code;
use crate::field::Field;

/// The words of a code, by the symbols of its free columns.
#[derive(Clone, Debug)]
pub struct Encoder {
    field: Field,
    columns: usize,
    /// The columns whose symbols are the message, rising.
    free: Vec<usize>,
    /// For each other column: the column, and a weight for each message symbol.
    dependent: Vec<(usize, Vec<u8>)>,
}

impl Encoder {
    /// The encoder of a code.
    pub fn new(code: &Code) -> Encoder {
        let field = code.field.clone();
        let (rows, pivots) = reduced(&field, dense(code), code.columns);
        let free: Vec<usize> = (0..code.columns).filter(|n| !pivots.contains(n)).collect();
        let weights = |row: &Vec<u8>| free.iter().map(|&n| row[n]).collect();
        let dependent = pivots.into_iter().zip(rows.iter().map(weights)).collect();
        Encoder {
            field,
            columns: code.columns,
            free,
            dependent,
        }
    }

    /// The number of message symbols: N less the rank of the checks.
    pub fn message_length(&self) -> usize {
        self.free.len()
    }

    /// The message symbols in each code symbol, 137/248 for the code of the simulation.
    pub fn rate(&self) -> f64 {
        self.message_length() as f64 / self.columns as f64
    }

    /// The word of the code whose free columns hold the message.
    pub fn encode(&self, message: &[u8]) -> Vec<u8> {
        let mut word = vec![0; self.columns];
        for (&column, &symbol) in self.free.iter().zip(message) {
            word[column] = symbol;
        }
        for (column, weights) in &self.dependent {
            let terms = weights.iter().zip(message);
            let terms = terms.map(|(&weight, &symbol)| self.field.product(weight, symbol));
            word[*column] = terms.fold(0, |sum, term| sum ^ term);
        }
        word
    }

    /// A random word, "never the all-zero word: ties favour symbol 0".
    pub fn random_word(&self, generator: &mut Generator) -> Vec<u8> {
        loop {
            let message: Vec<u8> = (0..self.message_length())
                .map(|_| generator.below(self.field.size()) as u8)
                .collect();
            if message.iter().any(|&symbol| symbol != 0) {
                return self.encode(&message);
            }
        }
    }
}

/// The checks as rows of N weights.
fn dense(code: &Code) -> Vec<Vec<u8>> {
    let mut rows = vec![vec![0; code.columns]; code.checks.len()];
    for (row, check) in rows.iter_mut().zip(&code.checks) {
        for edge in check {
            row[edge.column] = edge.weight;
        }
    }
    rows
}

/// The reduced form: rows of rank many, each with a 1 in its pivot column, where every other row has
/// a 0; and the pivot columns.
fn reduced(field: &Field, mut rows: Vec<Vec<u8>>, columns: usize) -> (Vec<Vec<u8>>, Vec<usize>) {
    let mut pivots = Vec::new();
    for column in 0..columns {
        let rank = pivots.len();
        let Some(found) = (rank..rows.len()).find(|&row| rows[row][column] != 0) else {
            continue;
        };
        rows.swap(rank, found);
        let scale = field.inverse(rows[rank][column]);
        let pivot: Vec<u8> = rows[rank]
            .iter()
            .map(|&weight| field.product(scale, weight))
            .collect();
        for (index, row) in rows.iter_mut().enumerate() {
            let factor = row[column];
            if index != rank && factor != 0 {
                for (weight, &other) in row.iter_mut().zip(&pivot) {
                    *weight ^= field.product(factor, other);
                }
            }
        }
        rows[rank] = pivot;
        pivots.push(column);
    }
    rows.truncate(pivots.len());
    (rows, pivots)
}
