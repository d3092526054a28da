//! The frames of `examples/early.c`, through this package's calls: the lines are those that the example must print.

mod moments;

use moments::{FOUR_CHECKS, ONE_WRONG, THREE_WRONG};
use reference_decoder::line::hexadecimal;
use reference_decoder::sample::{bytes, Buffers};
use reference_decoder::{code_line, Refusal};

/// What `examples/early.c` prints.
const EXPECTED: &str = include_str!("../../../examples/early.out");

/// What symbols and store hold before each call. No record starts with it: a shift is below q.
const MARK: u8 = 0xEE;

/// The line that shows what a call answered, its status and updates or a refusal, and what it left in marked buffers.
fn line(name: &str, call: impl FnOnce(&mut Buffers) -> Result<(u8, usize), Refusal>) -> String {
    let code = code_line(&bytes(FOUR_CHECKS)).expect("an accepted code line");
    let mut buffers = Buffers::zeroed(code.lengths());
    buffers.symbols.fill(MARK);
    buffers.store.fill(MARK);
    let answer = call(&mut buffers).map_err(Refusal::number);
    let (number, updates) = answer.unwrap_or_else(|number| (number, 0));
    let places = code.places().into_iter();
    let records = places.filter(|place| buffers.store[place.start] != MARK);
    let symbols = String::from_utf8(hexadecimal(&buffers.symbols)).expect("digits");
    format!(
        "{name:<12} number {number:2}, updates {updates:2}, records {}, symbols {symbols}\n",
        records.count()
    )
}

/// The lines of one frame by both calls.
fn lines(frame: &[u8]) -> String {
    let code = bytes(FOUR_CHECKS);
    let decoded = line("decode", |buffers| {
        let outcome = buffers.decode(&code, frame)?;
        // Four checks are updated in each iteration.
        Ok((outcome.status(), 4 * usize::from(outcome.iterations())))
    });
    let stopped = line("decode_early", |buffers| {
        let stopped = buffers.decode_early(&code, frame)?;
        Ok((stopped.status(), usize::from(stopped.updates())))
    });
    decoded + &stopped
}

#[test]
fn the_example_prints_these_lines() {
    let [three_wrong, one_wrong] = [THREE_WRONG, ONE_WRONG].map(bytes);
    let frames = [&three_wrong[..], &one_wrong, &one_wrong[..23]];
    assert_eq!(frames.map(lines).concat(), EXPECTED);
}
