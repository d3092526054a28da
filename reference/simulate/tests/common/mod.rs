//! Random codes for the tests.

use reference_decoder::sample::{self, CodeSample, Generator, Size};
use reference_decoder::{code_line, Code as ReadCode};
use simulate::code::{Code, Edge};
use simulate::field::Field;

/// A random code of the size: its line with a word, and the same as the two packages read it.
pub fn random_code(generator: &mut Generator, size: &Size) -> (CodeSample, ReadCode, Code) {
    let sample = sample::code(generator, size);
    let read = code_line(&sample.line).expect("an accepted code line");
    let checks = read.checks.iter().map(|check| {
        let edges = check.columns.iter().zip(&check.weights);
        edges
            .map(|(&column, &weight)| Edge { column, weight })
            .collect()
    });
    let code = Code {
        field: Field::new(read.field().p()),
        columns: read.n,
        checks: checks.collect(),
    };
    (sample, read, code)
}
