//! The checks of `examples/display.c`, through this package's calls: the lines are those that the example must print.

use reference_decoder::sample::bytes;
use reference_decoder::{check, display, expand, Refusal};

/// What `examples/display.c` prints.
const EXPECTED: &str = include_str!("../../../examples/display.out");

const FIRST: u8 = 2;
const WEIGHTS: [u8; 3] = [1, 2, 3];
const QUIET: &str = "05000907 08000403 0602000A";
const NOISY: &str = "01000202 01000103 03010001";

/// The line that shows the answer of a call and the bytes that it wrote.
fn line(name: &str, answer: Result<usize, Refusal>, out: &[u8]) -> String {
    let (number, written) = match answer {
        Ok(written) => (0, written),
        Err(refusal) => (refusal.number(), 0),
    };
    let bytes = out[..written].iter();
    let bytes: String = bytes.map(|byte| format!(" {byte:02X}")).collect();
    format!("{name:<7} number {number}, bytes{bytes}")
}

/// The lines of both readers.
fn read(record: &[u8]) -> [String; 2] {
    let (mut symbols, mut sent) = ([0; 3], [0; 12]);
    let shown = display(FIRST, &WEIGHTS, record, &mut symbols);
    let expanded = expand(FIRST, &WEIGHTS, record, &mut sent);
    [
        line("display", shown, &symbols),
        line("bench", expanded, &sent),
    ]
}

#[test]
fn the_example_prints_these_lines() {
    let mut record = [0; 18];
    let mut lines = Vec::new();
    for costs in [QUIET, NOISY] {
        let written = check(FIRST, &WEIGHTS, &bytes(costs), &mut record);
        lines.push(line("record", written, &record));
        lines.extend(read(&record));
    }
    assert_eq!(lines[1], lines[4], "one display");
    assert_ne!(lines[2], lines[5], "two benches");
    record[17] = 1;
    lines.extend(read(&record));
    assert_eq!(lines.join("\n") + "\n", EXPECTED);
}
