//! Codes of the form that document 02, §2 asks for, near misses of it, messages, and the frames of
//! what is sent.

use super::{checks, Generator, Size};
use crate::check::DEGREES;
use crate::code::{CheckNode, Code, MOST_COLUMNS, MOST_EDGES, MOST_SCALE};
use crate::rule::Rule;

/// An accepted code "where N exceeds M and check m, counted from 0, contains column N - M + m and no
/// higher one", with numbers in the ranges of the size. There are fewer checks than the range says
/// where N leaves no room for them.
pub fn encodable_code(generator: &mut Generator, size: &Size) -> Code {
    let first = size.first_byte(generator);
    let p = Rule::new(first)
        .expect("an accepted first byte")
        .field()
        .p();
    let n = generator.between(size.columns.clone());
    let most = (n - 1).min(*size.checks.end());
    let m = generator.between(most.min(*size.checks.start())..=most);
    let mut edges_left = MOST_EDGES;
    let mut check = |place: usize| {
        let own = n - m + place;
        let room = edges_left - DEGREES.start() * (m - 1 - place);
        let most = (own + 1).min(room).min(*size.degree.end());
        let degree = generator.between(most.min(*size.degree.start())..=most);
        edges_left -= degree;
        check_up_to(generator, p, degree, own)
    };
    let checks = (0..m).map(&mut check).collect();
    Code {
        first,
        n,
        m,
        g: generator.byte(1..=MOST_SCALE),
        limit: generator.byte(size.limit.clone()),
        checks,
    }
}

/// A check of this degree on column `own`, which is not 0, and lower ones.
fn check_up_to(generator: &mut Generator, p: u8, degree: usize, own: usize) -> CheckNode {
    let mut columns = generator.rising(degree - 1, own);
    columns.push(own);
    CheckNode {
        columns,
        weights: checks::weights(generator, p, degree),
    }
}

/// How a code misses the form.
#[derive(Clone, Copy, Debug, PartialEq, Eq, PartialOrd, Ord)]
pub enum Miss {
    /// A check contains its own column, N - M + m, and one higher column.
    HigherColumn,
    /// A check contains only columns below its own.
    OwnColumnMissing,
    /// Two checks have each other's place.
    ChecksSwapped,
    /// There is one column more, which is in no check.
    ColumnMore,
    /// N is M.
    SquareCode,
    /// N is less than M.
    FewColumns,
}

impl Miss {
    /// Every way.
    pub const ALL: [Miss; 6] = [
        Miss::HigherColumn,
        Miss::OwnColumnMissing,
        Miss::ChecksSwapped,
        Miss::ColumnMore,
        Miss::SquareCode,
        Miss::FewColumns,
    ];
}

/// An accepted code that lacks the form, as near to the given one, which has it, as may be; none
/// where this code cannot miss the form in this way.
pub fn near_miss(generator: &mut Generator, code: &Code, miss: Miss) -> Option<Code> {
    let mut code = code.clone();
    let first_parity = code.n - code.m;
    match miss {
        Miss::HigherColumn if code.m > 1 => {
            let edges = code.edges();
            let place = generator.below(code.m - 1);
            let higher = generator.between(first_parity + place + 1..=code.n - 1);
            let weight = checks::weights(generator, code.field().p(), 1);
            let check = &mut code.checks[place];
            // Where there is no room for an edge more, the lowest one, which is not its own, goes.
            if edges == MOST_EDGES || check.columns.len() == *DEGREES.end() {
                check.columns.remove(0);
                check.weights.remove(0);
            }
            check.columns.push(higher);
            check.weights.extend(weight);
            Some(code)
        }
        Miss::OwnColumnMissing => {
            let place = generator.below(code.m);
            let own = first_parity + place;
            let check = &mut code.checks[place];
            let degree = check.columns.len().min(own);
            if degree < *DEGREES.start() {
                return None;
            }
            check.columns = generator.rising(degree, own);
            check.weights.truncate(degree);
            Some(code)
        }
        Miss::ChecksSwapped if code.m > 1 => {
            let places = generator.rising(2, code.m);
            code.checks.swap(places[0], places[1]);
            Some(code)
        }
        Miss::ColumnMore if code.n < MOST_COLUMNS => {
            code.n += 1;
            Some(code)
        }
        Miss::SquareCode if code.m > 1 => {
            let n = code.m;
            Some(narrowed(generator, code, n))
        }
        Miss::FewColumns if code.m > 2 => {
            let n = generator.between(2..=code.m - 1);
            Some(narrowed(generator, code, n))
        }
        _ => None,
    }
}

/// The code with so many columns, at most M and at least 2: check m contains column N - M + m, or 1
/// where that is less, and lower ones.
fn narrowed(generator: &mut Generator, mut code: Code, n: usize) -> Code {
    let p = code.field().p();
    code.n = n;
    for (place, check) in code.checks.iter_mut().enumerate() {
        let own = (n + place).saturating_sub(code.m).max(1);
        let degree = check.columns.len().min(own + 1);
        *check = check_up_to(generator, p, degree, own);
    }
    code
}

/// N - M symbols below q for a code of the form, now and then all 0.
pub fn message(generator: &mut Generator, code: &Code) -> Vec<u8> {
    let greatest = if generator.once_in(16) {
        0
    } else {
        (1 << code.field().p()) - 1
    };
    let symbols = 0..code.n - code.m;
    symbols.map(|_| generator.byte(0..=greatest)).collect()
}

/// A frame that costs 0 at the symbols of a word, and above 0 elsewhere.
pub fn certain_frame(generator: &mut Generator, code: &Code, word: &[u8]) -> Vec<u8> {
    let mut frame = Vec::new();
    for &symbol in word {
        for x in 0..code.field().size() {
            frame.push(if x == usize::from(symbol) {
                0
            } else {
                generator.byte(1..=255)
            });
        }
    }
    frame
}
