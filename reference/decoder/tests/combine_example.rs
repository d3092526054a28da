//! The frames of `examples/combine.c`, through this package's calls: the lines are those that the example must print.

use reference_decoder::line::hexadecimal;
use reference_decoder::sample::{bytes, Buffers};
use reference_decoder::{code_line, combine};

/// What `examples/combine.c` prints.
const EXPECTED: &str = include_str!("../../../examples/combine.out");

const CODE: &str = "020006040C08 03000001000102000301 03000101000203000401 \
                    03000002000201000501 03000301000402000503";
const SENT: &str = "020200010203";
const FIRST: &str = "090B0500 0C000408 05000B09 0C000807 0D040009 0B070B00";
const SECOND: &str = "000B0405 0E000109 000F070F 0C000405 080D0007 04000505";

/// The line that shows what became of a frame.
fn decoded(name: &str, frame: &[u8]) -> String {
    let line = bytes(CODE);
    let code = code_line(&line).expect("an accepted code line");
    let mut buffers = Buffers::zeroed(code.lengths());
    let outcome = buffers.decode(&line, frame).expect("an accepted frame");
    let (status, t) = (outcome.status(), outcome.iterations());
    let symbols = String::from_utf8(hexadecimal(&buffers.symbols)).expect("digits");
    format!("{name:<8} number {status}, iterations {t}, symbols {symbols}")
}

#[test]
fn the_example_prints_these_lines() {
    let [code, first, second] = [CODE, FIRST, SECOND].map(bytes);
    let mut combined = [0; 24];
    let written = combine(&code, &first, &second, &mut combined).expect("two accepted frames");
    let refusal = combine(&code, &first, &second[1..], &mut []).expect_err("a cost missing");
    let lines = [
        format!("sent     symbols {SENT}"),
        decoded("first", &first),
        decoded("second", &second),
        format!("combine  number 0, costs {written}"),
        decoded("combined", &combined),
        format!("combine  number {}, costs 0", refusal.number()),
    ];
    assert_eq!(lines.join("\n") + "\n", EXPECTED);
    assert!(lines[4].ends_with(SENT), "what was sent is found");
}
