//! Codes with long checks. The columns are points (a, b, c), with a and b any elements of GF(8) and c one
//! of the first few. Every form, a linear function of the point, makes eight checks: the columns at
//! which it has one value are those of one check. So the checks of a form have no column in common, and a
//! column is in as many checks as there are forms. Any three of the forms tell all points apart: no two
//! columns share three checks. With 256 columns or fewer, checks of degree 24 and columns in two checks or
//! more, some have to share two. The edges have random weights.

use reference_decoder::sample::Generator;

use crate::code::{Code, Edge};
use crate::field::Field;

/// The size of a code.
#[derive(Clone, Copy, Debug, PartialEq, Eq)]
pub struct Size {
    /// p.
    pub p: u8,
    /// In how many checks a column is: the forms, at most 4.
    pub weight: usize,
    /// How many c there are, at most 8: a check has eight times as many columns.
    pub layers: u8,
}

/// The elements of GF(8).
const ELEMENTS: u8 = 8;

/// The factors of a, b and c in each form. Every form but the second has a, and the second b, so that each
/// value is taken by as many points.
const FORMS: [[u8; 3]; 4] = [[1, 0, 0], [0, 1, 0], [1, 1, 1], [1, 2, 4]];

/// A code of the size; its weights depend on the seed only.
pub fn code(size: Size, seed: u64) -> Code {
    let field = Field::new(size.p);
    let mut generator = Generator::new(seed);
    let points: Vec<[u8; 3]> = points(size.layers).collect();
    let checks = FORMS[..size.weight].iter();
    let checks = checks.flat_map(|form| (0..ELEMENTS).map(move |value| (form, value)));
    let checks = checks
        .map(|(form, value)| {
            let columns = points.iter().enumerate();
            let columns = columns.filter(|(_, point)| value_of(form, point) == value);
            columns
                .map(|(column, _)| Edge {
                    column,
                    weight: field.power(generator.below(field.order())),
                })
                .collect()
        })
        .collect();
    Code {
        columns: points.len(),
        checks,
        field,
    }
}

/// The points in the order of the columns.
fn points(layers: u8) -> impl Iterator<Item = [u8; 3]> {
    (0..layers).flat_map(|c| {
        let plane = (0..ELEMENTS).flat_map(|a| (0..ELEMENTS).map(move |b| (a, b)));
        plane.map(move |(a, b)| [a, b, c])
    })
}

/// The value of a form at a point.
fn value_of(form: &[u8; 3], point: &[u8; 3]) -> u8 {
    let field = Field::new(3);
    let terms = form.iter().zip(point);
    terms.fold(0, |sum, (&factor, &element)| {
        sum ^ field.product(factor, element)
    })
}
