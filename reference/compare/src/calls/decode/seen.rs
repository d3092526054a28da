//! What decodings must meet beside their answers.

use reference_decoder::{decision, Code};

use super::common;
use super::inputs::Input;
use crate::calls::buffers::Buffers;
use crate::calls::first_byte::{self, ByDeviations, ByEdition};
use crate::tally::{Class, Tally};

const MOST_ITERATIONS: ByDeviations = ["t 255, k 2", "t 255, k 3"];
const THREE_PAIRS: ByEdition = [
    "3 pairs used in a store",
    "3 pairs used in a store, Min-Max",
];
const MOST_MARGIN: &str = "a margin of 510";
const FOUND: ByEdition = ["sum, found later", "Min-Max, found later"];
const NOT_FOUND: ByEdition = ["sum, not found", "Min-Max, not found"];
const LONGEST: ByEdition = ["sum, t 255", "Min-Max, t 255"];

/// The classes of answers, and all that must be seen.
pub fn expected() -> Vec<Class> {
    let mut classes = vec![Class::FoundAtStart, Class::FoundLater, Class::NotFound];
    classes.extend((2..=13).chain([19]).map(Class::Refused));
    let own = [MOST_ITERATIONS, THREE_PAIRS, FOUND, NOT_FOUND, LONGEST];
    let own = own.into_iter().flatten().chain([MOST_MARGIN]);
    let seen = common::names().chain(own);
    classes.extend(seen.map(Class::Seen));
    classes
}

/// Counts what a decoding shows: of its store and its margin buffer where it is accepted or nothing but these is
/// refused, and the rest where there was an iteration.
pub fn see(tally: &mut Tally, input: &Input, expected: Result<(u8, u8), u16>, buffers: &Buffers) {
    let code = common::see_lengths(tally, input, expected.err());
    if let (Some(code), Ok((status, t @ 1..))) = (code, expected) {
        common::see_updated(tally, &code, buffers);
        see_iterations(tally, &code, (status, t), buffers);
    }
}

/// Counts how a decoding with at least one iteration ended.
fn see_iterations(tally: &mut Tally, code: &Code, (status, t): (u8, u8), buffers: &Buffers) {
    first_byte::see_by_deviations(tally, code.rule(), MOST_ITERATIONS, t == 255);
    let margins = &buffers.margins.slice()[..code.n];
    tally.seen(MOST_MARGIN, margins.contains(&decision::MOST_MARGIN));
    let three_pairs = has_three_pairs(code, buffers.store.slice());
    for (names, met) in [
        (THREE_PAIRS, three_pairs),
        (FOUND, status == 0),
        (NOT_FOUND, status == 1),
        (LONGEST, t == 255),
    ] {
        first_byte::see_by_edition(tally, code.rule(), names, met);
    }
}

/// Whether some a of the store's records uses three pairs.
fn has_three_pairs(code: &Code, store: &[u8]) -> bool {
    let entry_length = 1 + 2 * code.rule().deviations();
    let records = code.records(store);
    code.checks.iter().zip(records).any(|(check, record)| {
        let mut entries = record[check.weights.len()..].chunks_exact(entry_length);
        entries.any(|entry| entry.get(5).is_some_and(|&column| column != 0xFF))
    })
}
