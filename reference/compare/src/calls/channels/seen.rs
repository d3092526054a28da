//! What calls with several channels must meet beside their answers.

use petsivola::channels::{Answer, SPENT};
use reference_decoder::{code_line, Code};

use super::inputs::Call;
use crate::calls::buffers::Buffers;
use crate::calls::first_byte::{self, ByEdition};
use crate::tally::{Class, Tally};

const FOUND_AT_START: &str = "a channel found at t = 0";
const FOUND: ByEdition = [
    "sum, a channel found later",
    "Min-Max, a channel found later",
];
const NOT_FOUND: ByEdition = ["sum, a channel not found", "Min-Max, a channel not found"];
const REFUSED: &str = "a channel refused by 13";
const SPENT_CHANNEL: ByEdition = ["sum, a channel spent", "Min-Max, a channel spent"];
const SPENT_AT_START: &str = "a channel spent with j = 0";
const REFUSED_BESIDE: &str = "a channel refused beside one found later";
const ALL_REFUSED: &str = "every channel refused";
const ALL_AT_START: &str = "every channel found at t = 0";
const MOST_ITERATIONS: &str = "a channel with j 255";
const SPENT_PAST_A_BYTE: &str = "more than 255 iterations of all channels";
const PAST_A_BYTE: &str = "P above 255";
/// Each accepted count.
const COUNTS: [&str; 8] = [
    "1 channel",
    "2 channels",
    "3 channels",
    "4 channels",
    "5 channels",
    "6 channels",
    "7 channels",
    "8 channels",
];
/// Counts next to the accepted ones, and the greatest.
const REFUSED_COUNTS: [(u8, &str); 3] = [
    (0, "0 channels refused"),
    (9, "9 channels refused"),
    (255, "255 channels refused"),
];
const ALLOWANCE_OF_1: &str = "allowance 1";
const GREATEST_ALLOWANCE: &str = "allowance 4,294,967,295";
const JUST_ENOUGH: &str = "an allowance spent by finished channels";
const ONE_LEFT: &str = "an allowance with 1 iteration left";
/// A buffer of exactly the length that is needed, and of one less, in the order of the parameters.
const EXACT: [&str; 4] = [
    "exactly the symbols",
    "exactly the costs",
    "a store of its length",
    "exactly the margins",
];
const SHORT_BY_ONE: [&str; 4] = [
    "2 by one symbol",
    "3 by one cost",
    "4 by one byte of room",
    "19 by one margin",
];
/// A buffer that would do for fewer channels.
const FOR_FEWER: [&str; 4] = [
    "2, symbols of fewer channels",
    "3, costs of fewer channels",
    "4, a store of fewer channels",
    "19, margins of fewer channels",
];
const FRAMES_OF_FEWER: &str = "12, frames of fewer channels";
const FRAMES_OF_MORE: &str = "12, frames of more channels";
const MOST_COLUMNS: &str = "an iteration with N 256";
const MOST_EDGES: &str = "an iteration with 1,024 edges";
const MOST_DEGREE: &str = "an iteration with degree 32";

/// The classes of answers, and all that must be seen.
pub fn expected() -> Vec<Class> {
    let mut classes = vec![Class::Accepted];
    let numbers = (2..=12).chain([19, 21, 22]);
    classes.extend(numbers.map(Class::Refused));
    let seen = [
        FOUND_AT_START,
        REFUSED,
        SPENT_AT_START,
        REFUSED_BESIDE,
        ALL_REFUSED,
        ALL_AT_START,
        MOST_ITERATIONS,
        SPENT_PAST_A_BYTE,
        PAST_A_BYTE,
        ALLOWANCE_OF_1,
        GREATEST_ALLOWANCE,
        JUST_ENOUGH,
        ONE_LEFT,
        FRAMES_OF_FEWER,
        FRAMES_OF_MORE,
        MOST_COLUMNS,
        MOST_EDGES,
        MOST_DEGREE,
    ];
    let seen = seen.into_iter().chain(COUNTS).chain(FOUND).chain(NOT_FOUND);
    let seen = seen.chain(SPENT_CHANNEL).chain(EXACT).chain(SHORT_BY_ONE);
    let seen = seen
        .chain(FOR_FEWER)
        .chain(REFUSED_COUNTS.map(|(_, name)| name));
    let seen = seen.chain(first_byte::names());
    classes.extend(seen.map(Class::Seen));
    classes
}

/// Counts what a call met, by the reference decoder's answer and the buffers as it left them.
pub fn see(tally: &mut Tally, call: &Call, expected: &Answer, filled: &Buffers) {
    match (expected.number, code_line(&call.input.line)) {
        (0, Ok(code)) => {
            see_numbers(tally, call, expected);
            see_channels(tally, call, &code, expected);
            see_code(tally, &code, expected, filled);
            see_lengths(tally, call, &code, 0);
        }
        (21, _) => {
            for (count, name) in REFUSED_COUNTS {
                tally.seen(name, count == call.count);
            }
        }
        (number, Ok(code)) => see_lengths(tally, call, &code, number),
        _ => (),
    }
}

/// Counts the count and the allowance of an accepted call.
fn see_numbers(tally: &mut Tally, call: &Call, expected: &Answer) {
    tally.seen(COUNTS[usize::from(call.count) - 1], true);
    tally.seen(ALLOWANCE_OF_1, call.allowance == 1);
    tally.seen(GREATEST_ALLOWANCE, call.allowance == u32::MAX);
    let (spent, any_spent) = (u32::from(expected.spent), expected.status.contains(&SPENT));
    tally.seen(JUST_ENOUGH, spent == call.allowance && !any_spent);
    tally.seen(ONE_LEFT, spent.checked_add(1) == Some(call.allowance));
    tally.seen(SPENT_PAST_A_BYTE, spent > 255);
}

/// Counts what became of each channel of an accepted call.
fn see_channels(tally: &mut Tally, call: &Call, code: &Code, expected: &Answer) {
    let channels = expected.status.into_iter().zip(expected.iterations);
    let channels: Vec<(u8, u8)> = channels.take(usize::from(call.count)).collect();
    for &(status, j) in &channels {
        tally.seen(FOUND_AT_START, (status, j) == (0, 0));
        tally.seen(SPENT_AT_START, (status, j) == (SPENT, 0));
        tally.seen(REFUSED, status == 13);
        tally.seen(MOST_ITERATIONS, j == 255);
        for (names, met) in [
            (FOUND, status == 0 && j > 0),
            (NOT_FOUND, status == 1),
            (SPENT_CHANNEL, status == SPENT && j > 0),
        ] {
            first_byte::see_by_edition(tally, code.rule(), names, met);
        }
    }
    let any = |test: fn(&(u8, u8)) -> bool| channels.iter().any(test);
    let refused = any(|&(status, _)| status == 13);
    tally.seen(
        REFUSED_BESIDE,
        refused && any(|&(status, j)| status == 0 && j > 0),
    );
    tally.seen(ALL_REFUSED, !any(|&(status, _)| status != 13));
    tally.seen(ALL_AT_START, !any(|&channel| channel != (0, 0)));
}

/// Counts the code of an accepted call with at least one iteration.
fn see_code(tally: &mut Tally, code: &Code, expected: &Answer, filled: &Buffers) {
    if expected.spent == 0 {
        return;
    }
    first_byte::see(tally, code.first);
    let degrees = code.checks.iter().map(|check| check.weights.len());
    tally.seen(MOST_COLUMNS, code.n == 256);
    tally.seen(MOST_EDGES, degrees.clone().sum::<usize>() == 1_024);
    tally.seen(MOST_DEGREE, degrees.max() == Some(32));
    // The first channel's costs, where it made an iteration.
    let costs = &filled.costs.slice()[..code.frame_length()];
    let past = expected.iterations[0] > 0 && costs.iter().any(|&cost| cost > 255);
    tally.seen(PAST_A_BYTE, past);
}

/// Counts the lengths of a call that is accepted or refused by one of them.
fn see_lengths(tally: &mut Tally, call: &Call, code: &Code, number: u8) {
    let (channels, frames) = (usize::from(call.count), call.input.frame.len());
    let whole = number == 12 && frames % code.frame_length() == 0;
    tally.seen(
        FRAMES_OF_FEWER,
        whole && frames < channels * code.frame_length(),
    );
    tally.seen(
        FRAMES_OF_MORE,
        whole && frames > channels * code.frame_length(),
    );
    let lengths = call.input.lengths.into_iter().zip(code.lengths());
    for (place, (length, one)) in lengths.enumerate() {
        let refused = number == [2, 3, 4, 19][place];
        let needed = channels * one;
        tally.seen(EXACT[place], number == 0 && length == needed);
        tally.seen(SHORT_BY_ONE[place], refused && length + 1 == needed);
        tally.seen(FOR_FEWER[place], refused && length >= one);
    }
}
