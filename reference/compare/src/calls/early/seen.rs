//! What decodings that may stop inside an iteration must meet beside their answers.

use reference_decoder::Code;

use crate::calls::buffers::Buffers;
use crate::calls::decode::common;
use crate::calls::decode::inputs::Input;
use crate::calls::first_byte::{self, ByEdition, ByRule};
use crate::tally::{Class, Tally};

/// The places of other checks in the store then keep their bytes.
const INSIDE_FIRST: ByRule = [
    "found inside the first iteration, k 2",
    "found inside the first iteration, k 2, Min-Max",
    "found inside the first iteration, k 3",
    "found inside the first iteration, k 3, Min-Max",
];
const INSIDE_LATER: ByRule = [
    "found inside a later iteration, k 2",
    "found inside a later iteration, k 2, Min-Max",
    "found inside a later iteration, k 3",
    "found inside a later iteration, k 3, Min-Max",
];
const AT_AN_END: ByRule = [
    "found at the end of an iteration, k 2",
    "found at the end of an iteration, k 2, Min-Max",
    "found at the end of an iteration, k 3",
    "found at the end of an iteration, k 3, Min-Max",
];
const NOT_FOUND: ByRule = [
    "not found, k 2",
    "not found, k 2, Min-Max",
    "not found, k 3",
    "not found, k 3, Min-Max",
];
/// Found, though there is no update more.
const AT_THE_LAST: ByEdition = [
    "sum, found after M times I updates",
    "Min-Max, found after M times I updates",
];
const LONGEST: ByEdition = ["sum, M times 255 updates", "Min-Max, M times 255 updates"];
const MOST_UPDATES: &str = "32,640 updates";

/// The classes of answers, and all that must be seen.
pub fn expected() -> Vec<Class> {
    let mut classes = vec![Class::FoundAtStart, Class::FoundLater, Class::NotFound];
    classes.extend((2..=13).chain([19]).map(Class::Refused));
    let by_rule = [INSIDE_FIRST, INSIDE_LATER, AT_AN_END, NOT_FOUND];
    let own = by_rule.into_iter().flatten();
    let own = own.chain(AT_THE_LAST).chain(LONGEST);
    let seen = common::names().chain(own).chain([MOST_UPDATES]);
    classes.extend(seen.map(Class::Seen));
    classes
}

/// Counts what a decoding shows: of its store and its margin buffer where it is accepted or nothing but these is
/// refused, and the rest where there was an update.
pub fn see(tally: &mut Tally, input: &Input, expected: Result<(u8, u16), u16>, buffers: &Buffers) {
    let code = common::see_lengths(tally, input, expected.err());
    if let (Some(code), Ok((status, updates @ 1..))) = (code, expected) {
        common::see_updated(tally, &code, buffers);
        see_moment(tally, &code, status, usize::from(updates));
    }
}

/// Counts the moment at which a decoding with at least one update stopped.
fn see_moment(tally: &mut Tally, code: &Code, status: u8, updates: usize) {
    let (found, inside) = (status == 0, !updates.is_multiple_of(code.m));
    let in_first = updates < code.m;
    for (names, met) in [
        (INSIDE_FIRST, found && inside && in_first),
        (INSIDE_LATER, found && inside && !in_first),
        (AT_AN_END, found && !inside),
        (NOT_FOUND, !found),
    ] {
        first_byte::see_by_rule(tally, code.first, names, met);
    }
    let last = updates == code.m * usize::from(code.limit);
    for (names, met) in [
        (AT_THE_LAST, found && last),
        (LONGEST, updates == 255 * code.m),
    ] {
        first_byte::see_by_edition(tally, code.rule(), names, met);
    }
    tally.seen(MOST_UPDATES, updates == 32_640);
}
