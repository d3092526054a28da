//! The program of document 01, "Program", by the reference decoder: standard input to standard
//! output.

#![forbid(unsafe_code)]

use std::io;

use reference_decoder::program::{run, INPUT_LIMIT};

fn main() -> io::Result<()> {
    run(io::stdin().lock(), &mut io::stdout().lock(), INPUT_LIMIT)
}
