//! Encoding. Document 02, §2: "Given an accepted code line and N - M message symbols, write the N
//! symbols." "The first N - M symbols are the message, each check is satisfied, and no other word
//! with that message satisfies them all."
//!
//! The checks are taken as M equations for the M symbols behind the message and solved by Gaussian
//! elimination, in which the order of the checks and columns plays no part.

use crate::code::{code_line, CheckNode, Code};
use crate::field::{sum, Field};
use crate::refusal::Refusal;

/// Writes the word of a message and answers N. Order: the code line's refusals; "17, the code line
/// lacks this form, after all code refusals; 18, message length is not N - M or a symbol is not
/// below q, after 17; then 2."
pub fn encode(code: &[u8], message: &[u8], symbols: &mut [u8]) -> Result<usize, Refusal> {
    let code = code_line(code)?;
    if !has_encoding_form(&code) {
        return Err(Refusal::NoForm);
    }
    let field = code.field();
    let all_below_q = message.iter().all(|&symbol| field.contains(symbol));
    if message.len() != code.n - code.m || !all_below_q {
        return Err(Refusal::Message);
    }
    if symbols.len() < code.n {
        return Err(Refusal::ShortBuffer);
    }
    let word = [message, &parity_symbols(&code, message)].concat();
    symbols[..code.n].copy_from_slice(&word);
    Ok(code.n)
}

/// "This works for lines where N exceeds M and check m, counted from 0, contains column N - M + m
/// and no higher one."
pub fn has_encoding_form(code: &Code) -> bool {
    let mut checks = code.checks.iter().enumerate();
    code.n > code.m
        && checks.all(|(m, check)| {
            let own = code.n - code.m + m;
            check.columns.contains(&own) && check.columns.iter().all(|&column| column <= own)
        })
}

/// The M symbols behind the message with which every check is satisfied.
fn parity_symbols(code: &Code, message: &[u8]) -> Vec<u8> {
    let field = code.field();
    let checks = code.checks.iter();
    let mut equations: Vec<Equation> = checks
        .map(|check| Equation::of_check(code, check, message))
        .collect();
    for unknown in 0..code.m {
        let pivot = (unknown..code.m)
            .find(|&place| equations[place].weights[unknown] != 0)
            .expect("a pivot for each symbol, since there is exactly one word");
        equations.swap(unknown, pivot);
        let solved = equations[unknown].divided(field, unknown);
        for equation in &mut equations {
            equation.subtract(field, unknown, &solved);
        }
        equations[unknown] = solved;
    }
    equations.iter().map(|equation| equation.constant).collect()
}

/// An equation for the M symbols behind the message: their weighted sum is the constant.
#[derive(Clone, Debug)]
struct Equation {
    /// The weight of each of the M symbols.
    weights: Vec<u8>,
    constant: u8,
}

impl Equation {
    /// "each check is satisfied": what the message's columns add up to, the others must add up to.
    fn of_check(code: &Code, check: &CheckNode, message: &[u8]) -> Equation {
        let field = code.field();
        let mut weights = vec![0; code.m];
        let mut terms = Vec::new();
        for (&column, &weight) in check.columns.iter().zip(&check.weights) {
            match message.get(column) {
                Some(&symbol) => terms.push(field.product(weight, symbol)),
                None => weights[column - message.len()] = weight,
            }
        }
        Equation {
            weights,
            constant: sum(terms),
        }
    }

    /// This equation divided by its weight of an unknown symbol.
    fn divided(&self, field: Field, unknown: usize) -> Equation {
        let inverse = field.inverse(self.weights[unknown]);
        let divided = |&weight| field.product(inverse, weight);
        Equation {
            weights: self.weights.iter().map(divided).collect(),
            constant: divided(&self.constant),
        }
    }

    /// Takes a multiple of another equation, in which the unknown symbol has weight 1, off this one,
    /// so that its weight here becomes 0.
    fn subtract(&mut self, field: Field, unknown: usize, other: &Equation) {
        let factor = self.weights[unknown];
        if factor == 0 {
            return;
        }
        for (weight, &other) in self.weights.iter_mut().zip(&other.weights) {
            *weight ^= field.product(factor, other);
        }
        self.constant ^= field.product(factor, other.constant);
    }
}
