//! Codes and frames.

use std::ops::RangeInclusive;

use super::{checks, costs, Generator, Style};
use crate::check::DEGREES;
use crate::code::{CheckNode, Code, MOST_EDGES, MOST_SCALE};
use crate::field::{sum, Field};
use crate::rule::{Join, Rule};

/// The ranges from which a code's numbers are taken. A check takes fewer edges than its range says
/// where the columns or the edge total leave no room for them.
#[derive(Clone, Debug, PartialEq, Eq)]
pub struct Size {
    /// p.
    pub p: RangeInclusive<u8>,
    /// k.
    pub k: RangeInclusive<usize>,
    /// The edition.
    pub join: RangeInclusive<Join>,
    /// N, at least 2.
    pub columns: RangeInclusive<usize>,
    /// M.
    pub checks: RangeInclusive<usize>,
    /// The degree of each check.
    pub degree: RangeInclusive<usize>,
    /// I.
    pub limit: RangeInclusive<u8>,
}

impl Size {
    /// Codes of a few columns, for many runs.
    pub const SMALL: Size = Size {
        p: 2..=3,
        k: 2..=3,
        join: Join::BOTH,
        columns: 2..=8,
        checks: 1..=4,
        degree: 2..=5,
        limit: 1..=5,
    };
    /// Codes of every p on which a decoding is still short.
    pub const MEDIUM: Size = Size {
        p: 2..=6,
        k: 2..=3,
        join: Join::BOTH,
        columns: 8..=48,
        checks: 2..=16,
        degree: 2..=8,
        limit: 1..=10,
    };
    /// Every accepted size. A decoding may take up to 255 iterations over 1,024 edges.
    pub const FULL: Size = Size {
        p: 2..=6,
        k: 2..=3,
        join: Join::BOTH,
        columns: 2..=256,
        checks: 1..=128,
        degree: 2..=32,
        limit: 1..=255,
    };
    /// The limits of p, N, M and the edge total together.
    pub const MOST_CHECKS: Size = Size {
        p: 6..=6,
        k: 2..=3,
        join: Join::BOTH,
        columns: 256..=256,
        checks: 128..=128,
        degree: 8..=8,
        limit: 1..=3,
    };
    /// The limits of p, N, the degree and the edge total together.
    pub const MOST_DEGREE: Size = Size {
        p: 6..=6,
        k: 2..=3,
        join: Join::BOTH,
        columns: 256..=256,
        checks: 32..=32,
        degree: 32..=32,
        limit: 1..=3,
    };

    /// A first byte of this size.
    pub fn first_byte(&self, generator: &mut Generator) -> u8 {
        let (p, k, join) = (self.p.clone(), self.k.clone(), self.join.clone());
        checks::first_byte_with(generator, p, k, join)
    }
}

/// A code line with a word of its code.
#[derive(Clone, Debug, PartialEq, Eq)]
pub struct CodeSample {
    /// The accepted code line.
    pub line: Vec<u8>,
    /// N symbols that satisfy every check: all 0 or all different from 0.
    pub word: Vec<u8>,
}

/// An accepted code line, and a word of its code, with numbers in the ranges of the size.
pub fn code(generator: &mut Generator, size: &Size) -> CodeSample {
    let first = size.first_byte(generator);
    let field = Rule::new(first).expect("an accepted first byte").field();
    let n = generator.between(size.columns.clone());
    let m = generator.between(size.checks.clone());
    let word = word(generator, field, n);
    let g = generator.byte(1..=MOST_SCALE);
    let limit = generator.byte(size.limit.clone());
    let mut checks = Vec::new();
    let mut edges_left = MOST_EDGES;
    for checks_left in (0..m).rev() {
        let room = edges_left - DEGREES.start() * checks_left;
        let most = n.min(room).min(*size.degree.end());
        let degree = generator.between(most.min(*size.degree.start())..=most);
        edges_left -= degree;
        let columns = generator.rising(degree, n);
        let weights = weights_for_word(generator, field, &columns, &word);
        checks.push(CheckNode { columns, weights });
    }
    let code = Code {
        first,
        n,
        m,
        g,
        limit,
        checks,
    };
    CodeSample {
        line: code.line(),
        word,
    }
}

/// A frame of random columns in one style.
pub fn frame(generator: &mut Generator, code: &Code, style: Style) -> Vec<u8> {
    costs::columns(generator, code.field().size(), code.n, style)
}

/// A frame whose hard decisions are the word's symbols but in `wrong` columns, where another symbol
/// is decided and the word's symbol costs little.
pub fn noisy_frame(
    generator: &mut Generator,
    code: &Code,
    word: &[u8],
    wrong: usize,
    style: Style,
) -> Vec<u8> {
    let q = code.field().size();
    let greatest = (1 << code.field().p()) - 1;
    let wrong_columns = generator.rising(wrong.min(code.n), code.n);
    let mut frame = Vec::new();
    for (n, &symbol) in word.iter().enumerate() {
        if wrong_columns.contains(&n) {
            let other = symbol ^ generator.byte(1..=greatest);
            let mut column = costs::column_deciding(generator, q, style, other);
            let cost = &mut column[usize::from(symbol)];
            *cost = (*cost / 4).max(1);
            frame.extend(column);
        } else {
            frame.extend(costs::column_deciding(generator, q, style, symbol));
        }
    }
    frame
}

/// All 0, or all different from 0: for both, some weights satisfy a check on any two columns or more.
fn word(generator: &mut Generator, field: Field, n: usize) -> Vec<u8> {
    let greatest = (1 << field.p()) - 1;
    let zero = generator.once_in(4);
    let symbol = |_| {
        if zero {
            0
        } else {
            generator.byte(1..=greatest)
        }
    };
    (0..n).map(symbol).collect()
}

/// Weights with which the word satisfies the check on these columns; about one draw in q does.
fn weights_for_word(
    generator: &mut Generator,
    field: Field,
    columns: &[usize],
    word: &[u8],
) -> Vec<u8> {
    loop {
        let weights = checks::weights(generator, field.p(), columns.len());
        let terms = columns
            .iter()
            .zip(&weights)
            .map(|(&column, &weight)| field.product(weight, word[column]));
        if sum(terms) == 0 {
            return weights;
        }
    }
}
