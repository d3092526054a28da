//! What lists of writes must meet.

use reference_decoder::check::accept_costs;
use reference_decoder::window::{CLEAR, COMMAND, ITERATE, LOAD, MASK, PENDING_REFUSAL};
use reference_decoder::{code_line, record, Code};

use super::board::{Board, Write};
use crate::calls::first_byte::{self, ByEdition};
use crate::tally::{Class, Tally};

const LOADS: [&str; 6] = [
    "load while idle",
    "load while running",
    "load while found",
    "load while not found",
    "load while refused",
    "load in another state",
];
const NOT_RUNNING: &str = "command 2 while not running";
const AT_255: &str = "command 2 while running with byte 3 at 255";
const OTHER_COMMAND: &str = "another command";
const CLEARED: &str = "pending cleared";
const MASKED: &str = "mask written";
const IGNORED: &str = "write to another byte";
const RAISED: &str = "interrupt raised";
const NOT_RAISED: &str = "interrupt masked";
const FIRST_ITERATION: &str = "iteration at t = 0";
const UNTESTED_RECORDS: &str = "iteration at t = 0 over records that 16 would refuse";
const LATER_ITERATION: ByEdition = ["sum, iteration later", "Min-Max, iteration later"];
const LAST_ITERATION: &str = "iteration to t = 255";
const PAST_LIMIT: &str = "not found with t above I";
const COST_ABOVE_510: &str = "13 by a cost above 510 in the cost buffer";
const NO_ZERO: &str = "13 by a column without a 0 in the cost buffer";
const OTHER_CODE: &str = "iteration under another code line than was loaded";
/// A buffer of exactly the length that is needed, and of one less, in the order of the parameters.
const EXACT: [&str; 4] = [
    "iteration with N symbols",
    "iteration with N q costs",
    "iteration with a store of its length",
    "iteration with N margins",
];
const SHORT_BY_ONE: [&str; 4] = [
    "iteration refused by one symbol",
    "iteration refused by one cost",
    "iteration refused by one byte of the store",
    "iteration refused by one margin",
];
const MOST_COLUMNS: &str = "iteration with N 256";
const MOST_EDGES: &str = "iteration with 1,024 edges";
const MOST_DEGREE: &str = "iteration with degree 32";
const FRAME_FIRST: &str = "13 by the frame while running";
const RECORD: ByEdition = [
    "sum, 16 by a stored record",
    "Min-Max, 16 by a stored record",
];

/// Each refusal of command 2, with the name under which it is counted.
const REFUSED_ITERATIONS: [(u8, &str); 14] = [
    (2, "iteration refused by 2"),
    (3, "iteration refused by 3"),
    (4, "iteration refused by 4"),
    (5, "iteration refused by 5"),
    (6, "iteration refused by 6"),
    (7, "iteration refused by 7"),
    (8, "iteration refused by 8"),
    (9, "iteration refused by 9"),
    (10, "iteration refused by 10"),
    (11, "iteration refused by 11"),
    (12, "iteration refused by 12"),
    (13, "iteration refused by 13"),
    (16, "iteration refused by 16"),
    (19, "iteration refused by 19"),
];

/// The classes of answers, and all that must be seen.
pub fn expected() -> Vec<Class> {
    let mut classes = vec![
        Class::Accepted,
        Class::FoundAtStart,
        Class::FoundLater,
        Class::NotFound,
    ];
    let refusals = REFUSED_ITERATIONS.iter();
    classes.extend(refusals.map(|&(number, _)| Class::Refused(u16::from(number))));
    let seen = [
        NOT_RUNNING,
        AT_255,
        OTHER_COMMAND,
        CLEARED,
        MASKED,
        IGNORED,
        RAISED,
        NOT_RAISED,
        FIRST_ITERATION,
        UNTESTED_RECORDS,
        LAST_ITERATION,
        PAST_LIMIT,
        COST_ABOVE_510,
        NO_ZERO,
        FRAME_FIRST,
        OTHER_CODE,
        MOST_COLUMNS,
        MOST_EDGES,
        MOST_DEGREE,
    ];
    let refused = REFUSED_ITERATIONS.map(|(_, name)| name);
    let seen = seen.into_iter().chain(LOADS).chain(refused);
    let seen = seen.chain(EXACT).chain(SHORT_BY_ONE);
    let seen = seen.chain(LATER_ITERATION).chain(RECORD);
    let seen = seen.chain(first_byte::names());
    classes.extend(seen.map(Class::Seen));
    classes
}

/// Counts what a write met, by the boards before and after it.
pub fn see(tally: &mut Tally, write: Write, before: &Board, after: &Board) {
    let running = before.state() == 1 && before.iterations() != 255;
    let mut made = false;
    match (write.address, write.value) {
        (COMMAND, LOAD) => {
            made = true;
            tally.seen(LOADS[usize::from(before.state().min(5))], true);
        }
        (COMMAND, ITERATE) if running => {
            made = true;
            see_iteration(tally, before, after);
        }
        (COMMAND, ITERATE) => {
            tally.seen(AT_255, before.state() == 1);
            tally.seen(NOT_RUNNING, before.state() != 1);
        }
        (COMMAND, CLEAR) => tally.seen(CLEARED, before.registers[4] != 0),
        (COMMAND, _) => tally.seen(OTHER_COMMAND, true),
        (MASK, _) => tally.seen(MASKED, true),
        _ => tally.seen(IGNORED, true),
    }
    tally.answer(match after.state() {
        _ if !made => Class::Accepted,
        4 => Class::Refused(u16::from(after.registers[1])),
        state @ (2 | 3) => Class::of_outcome(state - 2, after.iterations()),
        _ => Class::Accepted,
    });
    let [.., mask, pending] = after.registers;
    tally.seen(RAISED, mask & pending != 0);
    tally.seen(
        NOT_RAISED,
        mask & pending == 0 && pending & PENDING_REFUSAL != 0,
    );
}

/// Counts a command 2 of a running window.
fn see_iteration(tally: &mut Tally, before: &Board, after: &Board) {
    let t = before.iterations();
    if after.state() == 4 {
        return see_refused(tally, before, after.registers[1]);
    }
    let code = code_line(before.line.slice()).expect("an accepted code line");
    first_byte::see(tally, code.first);
    first_byte::see_by_edition(tally, code.rule(), LATER_ITERATION, t > 0);
    tally.seen(FIRST_ITERATION, t == 0);
    tally.seen(UNTESTED_RECORDS, t == 0 && !has_records(&code, before));
    tally.seen(LAST_ITERATION, after.iterations() == 255);
    let past = after.state() == 3 && after.iterations() > code.limit;
    tally.seen(PAST_LIMIT, past);
    tally.seen(OTHER_CODE, before.loaded != before.line.slice());
    let lengths = before.lengths().into_iter().zip(code.lengths());
    for (name, (length, needed)) in EXACT.into_iter().zip(lengths) {
        tally.seen(name, length == needed);
    }
    let degrees = code.checks.iter().map(|check| check.weights.len());
    tally.seen(MOST_COLUMNS, code.n == 256);
    tally.seen(MOST_EDGES, degrees.clone().sum::<usize>() == 1_024);
    tally.seen(MOST_DEGREE, degrees.max() == Some(32));
}

/// Counts a refused command 2 of a running window.
fn see_refused(tally: &mut Tally, before: &Board, refusal: u8) {
    for (number, name) in REFUSED_ITERATIONS {
        tally.seen(name, number == refusal);
    }
    let Ok(code) = code_line(before.line.slice()) else {
        return;
    };
    first_byte::see_by_edition(tally, code.rule(), RECORD, refusal == 16);
    let lengths = before.lengths().into_iter().zip(code.lengths());
    let short = SHORT_BY_ONE.into_iter().zip([2, 3, 4, 19]);
    for ((name, number), (length, needed)) in short.zip(lengths) {
        tally.seen(name, refusal == number && length + 1 == needed);
    }
    if refusal == 13 {
        let frame = accept_costs(code.field(), code.n, before.frame.slice());
        tally.seen(FRAME_FIRST, frame.is_err());
        let costs = before.buffers.costs.slice();
        let costs = costs.get(..code.frame_length()).unwrap_or_default();
        let above = costs.iter().any(|&cost| cost > 510);
        tally.seen(COST_ABOVE_510, frame.is_ok() && above);
        tally.seen(NO_ZERO, frame.is_ok() && !above);
    }
}

/// Whether every stored record has accepted form.
fn has_records(code: &Code, board: &Board) -> bool {
    let records = code.records(board.buffers.store.slice()).into_iter();
    let mut pairs = code.checks.iter().zip(records);
    pairs.all(|(check, record)| record::has_accepted_form(code.rule(), check.weights.len(), record))
}
