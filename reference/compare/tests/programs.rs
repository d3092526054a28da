//! The built program `decode` against the reference decoder's program, from a fixed seed: every
//! byte of standard output.

mod built;

use compare::programs;

/// The random inputs of small codes, each with up to a dozen frames.
const INPUTS: usize = 3_000;

#[test]
fn the_program_prints_what_the_reference_decoder_prints() {
    let Some(program) = built::program() else {
        return;
    };
    let mut tally = programs::tally();
    let compared = programs::compare_chosen(&program, &mut tally)
        .and_then(|()| programs::compare_random(&program, 1, INPUTS, &mut tally));
    tally.report();
    if let Err(difference) = compared {
        panic!("{difference}");
    }
    if let Err(words) = tally.complete() {
        panic!("{words}");
    }
}

/// "The program reads at most 4,294,967,295 bytes and takes the input as ended there." It gets them
/// all, and some more; no other limit gives the same output.
#[test]
fn the_program_reads_to_its_limit_and_no_further() {
    let Some(program) = built::program() else {
        return;
    };
    if let Err(difference) = programs::compare_input_limit(&program, &mut programs::tally()) {
        panic!("{difference}");
    }
}
