//! What the calls that combine must meet beside their answers.

use reference_decoder::{code_line, Code};

use super::Input;
use crate::calls::{accepted_or_refused, first_byte};
use crate::tally::{Class, Tally};

const LEAST_COLUMNS: &str = "N 2";
const MOST_COLUMNS: &str = "N 256";
const MOST_COSTS: &str = "16,384 costs";
const EXACT_BUFFER: &str = "a buffer of N q costs";
const BOUNDS: [&str; 4] = [LEAST_COLUMNS, MOST_COLUMNS, MOST_COSTS, EXACT_BUFFER];

const ZEROS: &str = "a second frame of zeros";
const ITSELF: &str = "a frame with itself";
const SUM_PAST_A_BYTE: &str = "a sum above 255";
const SUBTRACTED: &str = "a least above 0";
const MOST_LEAST: &str = "a least of 255";
const COMMON_ZERO: &str = "a 0 of both";
const NOT_CAPPED: &str = "255 without the cap";
const CAPPED_BY_ONE: &str = "256 capped";
/// Costs that pass the cap before the least is subtracted, and not after.
const CAP_COMES_LAST: &str = "a sum above 255 not capped";
const COSTS: [&str; 9] = [
    ZEROS,
    ITSELF,
    SUM_PAST_A_BYTE,
    SUBTRACTED,
    MOST_LEAST,
    COMMON_ZERO,
    NOT_CAPPED,
    CAPPED_BY_ONE,
    CAP_COMES_LAST,
];

const CODE_BEFORE_FIRST: &str = "a code refusal where the first frame was wrong";
const CODE_BEFORE_SECOND: &str = "a code refusal where the second frame was wrong";
const COUNT_BEFORE_SECOND: &str = "12 where 23 applies";
const COUNT_BEFORE_BUFFER: &str = "12 where 2 applies";
const ZERO_BEFORE_SECOND: &str = "13 where 23 applies";
const ZERO_BEFORE_BUFFER: &str = "13 where 2 applies";
const COST_MISSING: &str = "23 by a cost missing";
const COST_LEFT_OVER: &str = "23 by a cost left over";
const NO_ZERO: &str = "23 by a column without a 0";
const SECOND_BEFORE_BUFFER: &str = "23 where 2 applies";
const BUFFER_SHORT_BY_ONE: &str = "2 by one cost of room";
const CAUSES: [&str; 11] = [
    CODE_BEFORE_FIRST,
    CODE_BEFORE_SECOND,
    COUNT_BEFORE_SECOND,
    COUNT_BEFORE_BUFFER,
    ZERO_BEFORE_SECOND,
    ZERO_BEFORE_BUFFER,
    COST_MISSING,
    COST_LEFT_OVER,
    NO_ZERO,
    SECOND_BEFORE_BUFFER,
    BUFFER_SHORT_BY_ONE,
];

/// The classes of answers, and all that must be seen.
pub fn expected() -> Vec<Class> {
    let mut classes = accepted_or_refused(&[2, 5, 6, 7, 8, 9, 10, 11, 12, 13, 23]);
    let seen = first_byte::names().chain(BOUNDS).chain(COSTS).chain(CAUSES);
    classes.extend(seen.map(Class::Seen));
    classes
}

/// Counts what an input and its answer show.
pub fn see(tally: &mut Tally, input: &Input, expected: &Result<usize, u16>) {
    let Ok(code) = code_line(&input.line) else {
        let [first, second] = input.faults;
        tally.seen(CODE_BEFORE_FIRST, first.is_some());
        tally.seen(CODE_BEFORE_SECOND, second.is_some());
        return;
    };
    let [_, second] = input.faults_under(&code);
    let needed = code.frame_length();
    let short = input.length < needed;
    match expected {
        Ok(_) => see_accepted(tally, input, &code),
        Err(12) => {
            tally.seen(COUNT_BEFORE_SECOND, second.is_some());
            tally.seen(COUNT_BEFORE_BUFFER, short);
        }
        Err(13) => {
            tally.seen(ZERO_BEFORE_SECOND, second.is_some());
            tally.seen(ZERO_BEFORE_BUFFER, short);
        }
        Err(23) => {
            let count = input.frames[1].len();
            tally.seen(COST_MISSING, count + 1 == needed);
            tally.seen(COST_LEFT_OVER, count == needed + 1);
            tally.seen(NO_ZERO, second == Some(13));
            tally.seen(SECOND_BEFORE_BUFFER, short);
        }
        Err(_) => tally.seen(BUFFER_SHORT_BY_ONE, input.length + 1 == needed),
    }
}

/// Counts what two accepted frames show.
fn see_accepted(tally: &mut Tally, input: &Input, code: &Code) {
    let [first, second] = &input.frames;
    first_byte::see(tally, code.first);
    tally.seen(LEAST_COLUMNS, code.n == 2);
    tally.seen(MOST_COLUMNS, code.n == 256);
    tally.seen(MOST_COSTS, code.frame_length() == 16_384);
    tally.seen(EXACT_BUFFER, input.length == code.frame_length());
    tally.seen(ZEROS, second.iter().all(|&cost| cost == 0));
    tally.seen(ITSELF, first == second);
    let sums = first.iter().zip(second);
    let sums: Vec<u16> = sums.map(|(&a, &b)| u16::from(a) + u16::from(b)).collect();
    for column in sums.chunks_exact(code.field().size()) {
        see_column(tally, column);
    }
}

/// Counts what the sums of a column show.
fn see_column(tally: &mut Tally, sums: &[u16]) {
    let least = sums.iter().copied().min().expect("a column has costs");
    let greatest = sums.iter().copied().max().expect("a column has costs");
    tally.seen(SUM_PAST_A_BYTE, greatest > 255);
    tally.seen(SUBTRACTED, least > 0);
    tally.seen(MOST_LEAST, least == 255);
    tally.seen(COMMON_ZERO, least == 0);
    tally.seen(NOT_CAPPED, sums.contains(&(least + 255)));
    tally.seen(CAPPED_BY_ONE, sums.contains(&(least + 256)));
    let between = 256..least + 255;
    tally.seen(CAP_COMES_LAST, sums.iter().any(|sum| between.contains(sum)));
}
