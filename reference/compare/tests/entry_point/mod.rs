//! The comparison of one entry point in a test.

use compare::EntryPoint;

/// The random calls of each entry point.
const CALLS: usize = 20_000;

/// Compares the entry point, prints the counts, and panics when something differs or was never met.
pub fn compare(entry_point: &EntryPoint) {
    let mut tally = entry_point.tally();
    let compared = entry_point
        .compare_every(&mut tally)
        .and_then(|()| entry_point.compare_random(1, CALLS, &mut tally));
    tally.report();
    if let Err(difference) = compared {
        panic!("{difference}");
    }
    if let Err(words) = tally.complete() {
        panic!("{words}");
    }
}
