//! The noisy frames of `examples/`, at the repository's root: what is printed for them, beside the
//! words that were sent.

mod built;

use std::fs;
use std::path::Path;

/// The files, without what follows the dot.
const FILES: &str = concat!(env!("CARGO_MANIFEST_DIR"), "/../../examples/gf32-248-137");

fn file(end: &str) -> String {
    let path = Path::new(FILES).with_extension(end);
    fs::read_to_string(&path).unwrap_or_else(|error| panic!("{}: {error}", path.display()))
}

#[test]
fn the_program_prints_the_expected_lines() {
    let Some(program) = built::program() else {
        return;
    };
    let printed = program.output(file("hex").as_bytes());
    assert_eq!(printed.expect("the program runs"), file("out").as_bytes());
}

#[test]
fn the_reference_decoder_prints_the_expected_lines() {
    let printed = reference_decoder::program(file("hex").as_bytes());
    assert_eq!(printed, file("out").as_bytes());
}

/// "status, t, then the symbols": 00 where the frame is found.
#[test]
fn all_frames_but_one_are_corrected() {
    let (printed, sent) = (file("out"), file("sent"));
    assert_eq!(printed.lines().count(), sent.lines().count());
    let mut corrected = 0;
    for (printed, sent) in printed.lines().zip(sent.lines()) {
        let (status, t, symbols) = (&printed[..2], &printed[2..4], &printed[4..]);
        assert_ne!(t, "00", "no frame is clean");
        assert_eq!(status == "00", symbols == sent);
        corrected += usize::from(symbols == sent);
    }
    assert_eq!(corrected, sent.lines().count() - 1);
}
