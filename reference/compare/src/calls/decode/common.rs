//! What the calls that decode one frame must meet beside their answers, wherever they stop.

use reference_decoder::{code_line, Code};

use super::inputs::{with_other_deviations, Input};
use crate::calls::buffers::Buffers;
use crate::calls::first_byte::{self, ByDeviations, ByEdition};
use crate::tally::Tally;

const LEAST_COLUMNS: ByDeviations = ["N 2, k 2", "N 2, k 3"];
const LEAST_DEGREE: ByDeviations = ["degree 2, k 2", "degree 2, k 3"];
const MOST_COLUMNS: ByDeviations = ["N 256, k 2", "N 256, k 3"];
const MOST_CHECKS: ByDeviations = ["M 128, k 2", "M 128, k 3"];
const MOST_EDGES: ByDeviations = ["1,024 edges, k 2", "1,024 edges, k 3"];
const MOST_DEGREE: ByDeviations = ["degree 32, k 2", "degree 32, k 3"];
const PAST_A_BYTE: ByDeviations = ["P above 255, k 2", "P above 255, k 3"];
const EXACT_STORE: ByDeviations = ["k 2, a store of its length", "k 3, a store of its length"];
const STORE_SHORT_BY_ONE: ByDeviations =
    ["k 2, 4 by one byte of room", "k 3, 4 by one byte of room"];
/// Document 02, §3: "4 and 16 use the new length".
const STORE_OF_OTHER_LENGTH: ByDeviations = ["k 2, a store for k 3", "k 3, 4 by a store for k 2"];
/// A margin buffer of N elements, and one less.
const EXACT_MARGINS: ByEdition = ["sum, N margins", "Min-Max, N margins"];
const MARGINS_SHORT_BY_ONE: ByEdition = ["sum, 19 by one margin", "Min-Max, 19 by one margin"];
const TIE: ByEdition = ["sum, a margin of 0", "Min-Max, a margin of 0"];
const MARGIN_PAST_A_BYTE: ByEdition = ["sum, a margin above 255", "Min-Max, a margin above 255"];

/// The names of all that must be seen.
pub fn names() -> impl Iterator<Item = &'static str> {
    let by_deviations = [
        LEAST_COLUMNS,
        LEAST_DEGREE,
        MOST_COLUMNS,
        MOST_CHECKS,
        MOST_EDGES,
        MOST_DEGREE,
        PAST_A_BYTE,
        EXACT_STORE,
        STORE_SHORT_BY_ONE,
        STORE_OF_OTHER_LENGTH,
    ];
    let by_edition = [EXACT_MARGINS, MARGINS_SHORT_BY_ONE, TIE, MARGIN_PAST_A_BYTE];
    let seen = by_deviations.into_iter().chain(by_edition).flatten();
    seen.chain(first_byte::names())
}

/// Counts what the buffers' lengths show where the input is accepted, or refused by nothing but the store or the margin
/// buffer: then it answers the code.
pub fn see_lengths(tally: &mut Tally, input: &Input, refusal: Option<u16>) -> Option<Code> {
    if !matches!(refusal, None | Some(4 | 19)) {
        return None;
    }
    let code = code_line(&input.line).expect("an accepted code line");
    see_room(tally, &code, input.lengths[2]);
    if refusal != Some(4) {
        see_margin_room(tally, &code, input.lengths[3]);
    }
    Some(code)
}

/// Counts the length of the store.
fn see_room(tally: &mut Tally, code: &Code, length: usize) {
    let needed = code.store_length();
    for (names, met) in [
        (EXACT_STORE, length == needed),
        (STORE_SHORT_BY_ONE, length + 1 == needed),
        (
            STORE_OF_OTHER_LENGTH,
            length == with_other_deviations(code).store_length(),
        ),
    ] {
        first_byte::see_by_deviations(tally, code.rule(), names, met);
    }
}

/// Counts the length of the margin buffer.
fn see_margin_room(tally: &mut Tally, code: &Code, length: usize) {
    for (names, met) in [
        (EXACT_MARGINS, length == code.n),
        (MARGINS_SHORT_BY_ONE, length + 1 == code.n),
    ] {
        first_byte::see_by_edition(tally, code.rule(), names, met);
    }
}

/// Counts what a decoding with at least one update shows.
pub fn see_updated(tally: &mut Tally, code: &Code, buffers: &Buffers) {
    let degrees = code.checks.iter().map(|check| check.weights.len());
    let costs = &buffers.costs.slice()[..code.frame_length()];
    first_byte::see(tally, code.first);
    for (names, met) in [
        (LEAST_COLUMNS, code.n == 2),
        (LEAST_DEGREE, degrees.clone().min() == Some(2)),
        (MOST_COLUMNS, code.n == 256),
        (MOST_CHECKS, code.m == 128),
        (MOST_EDGES, degrees.clone().sum::<usize>() == 1_024),
        (MOST_DEGREE, degrees.max() == Some(32)),
        (PAST_A_BYTE, costs.iter().any(|&cost| cost > 255)),
    ] {
        first_byte::see_by_deviations(tally, code.rule(), names, met);
    }
    let margins = &buffers.margins.slice()[..code.n];
    for (names, met) in [
        (TIE, margins.contains(&0)),
        (
            MARGIN_PAST_A_BYTE,
            margins.iter().any(|&margin| margin > 255),
        ),
    ] {
        first_byte::see_by_edition(tally, code.rule(), names, met);
    }
}
