//! Decodes document 01's frame and prints the line that the program `decode` prints for it:
//! `0001010100`, found, one iteration, symbols 1, 1, 0. The margins, not printed, are 1, 1, 1: with each
//! symbol the next one costs 1 more. `examples/decode.c` is the same in C.

#![forbid(unsafe_code)]

use petsivola::{code_line, decode, Outcome, Refusal};

/// The code line: p = 2, k = 2 and the sum, N = 3, M = 1, g = 16, I = 1, then one check of degree 3 with all
/// weights 1.
const CODE: [u8; 16] = [2, 0, 3, 1, 16, 1, 3, 0, 0, 1, 0, 1, 1, 0, 2, 1];

/// The frame: four costs for each of the three columns.
const FRAME: [u8; 12] = [5, 0, 9, 7, 0, 4, 8, 3, 0, 6, 2, 10];

fn main() {
    match decoded(&CODE, &FRAME) {
        Ok((outcome, symbols)) => {
            print!("{:02X}{:02X}", outcome.status(), outcome.iterations());
            for symbol in symbols {
                print!("{symbol:02X}");
            }
            println!();
        }
        Err(refusal) => println!("{:02X}00", refusal.number()),
    }
}

/// The outcome and the symbols, in buffers as long as the code line needs them. Without a heap, the constants of
/// `petsivola::lengths` are enough for every code line.
fn decoded(line: &[u8], frame: &[u8]) -> Result<(Outcome, Vec<u8>), Refusal> {
    let code = code_line(line)?;
    let mut symbols = vec![0; code.columns()];
    let mut costs = vec![0; code.frame_length()];
    let mut store = vec![0; code.store_length()];
    let mut margins = vec![0; code.columns()];
    let outcome = decode(
        line,
        frame,
        &mut symbols,
        &mut costs,
        &mut store,
        &mut margins,
    )?;
    Ok((outcome, symbols))
}
