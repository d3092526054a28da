//! Quasi-cyclic codes of any column weight, for the sweep over g. The checks stand in rows of square
//! blocks and the columns in columns of them; every block has one edge in each of its rows and in each
//! of its columns, at a place that goes round a circle. So a column has as many edges as there are
//! rows of blocks, and a check as many as there are columns of blocks. The edges have random weights.

use reference_decoder::sample::Generator;

use crate::code::{Code, Edge};
use crate::field::Field;

/// The size of a code.
#[derive(Clone, Copy, Debug, PartialEq, Eq)]
pub struct Size {
    /// p.
    pub p: u8,
    /// In how many checks a column is: the rows of blocks.
    pub weight: usize,
    /// How many columns a check has: the columns of blocks, at most 6.
    pub degree: usize,
    /// The rows and the columns of a block.
    pub circle: usize,
}

/// The marks of a ruler on which no two pairs of marks are equally far apart. Row i of the blocks
/// turns block j by i times mark j. Two columns share two checks only where a difference of two i
/// times a difference of two marks is a multiple of the circle.
const MARKS: [usize; 6] = [0, 1, 4, 10, 12, 17];

/// A code of the size; its weights depend on the seed only.
pub fn code(size: Size, seed: u64) -> Code {
    let field = Field::new(size.p);
    let mut generator = Generator::new(seed);
    let places = (0..size.weight).flat_map(|i| (0..size.circle).map(move |r| (i, r)));
    let checks = places
        .map(|(i, r)| {
            let marks = MARKS[..size.degree].iter().enumerate();
            let columns = marks.map(|(j, mark)| j * size.circle + (r + i * mark) % size.circle);
            columns
                .map(|column| Edge {
                    column,
                    weight: field.power(generator.below(field.order())),
                })
                .collect()
        })
        .collect();
    Code {
        columns: size.degree * size.circle,
        checks,
        field,
    }
}
