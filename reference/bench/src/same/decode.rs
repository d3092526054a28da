//! The layered decoder: P stands in the lent cost buffer, the records in the lent store, the decisions in
//! the lent symbol buffer; one check's Q and sent costs in local arrays. The margins are made once, from the
//! last P.
//!
//! What a decoder that stops inside an iteration shares is made inline in both: each is then as fast as one alone.

use super::code::{Check, Code};
use super::expansion::expand_by;
use super::products::product;
use super::record::messages;
use super::rule::MOST_ROWS;
use crate::accepted::{self, Refusal, MOST_COLUMNS};
use crate::decision::Decision;

/// The most costs of one check.
const MOST_COSTS: usize = MOST_COLUMNS * MOST_ROWS;

/// Room to work in.
pub struct Room {
    /// Q of the check at hand.
    arrived: [u8; MOST_COSTS],
    /// What its old record sent, then what it sends, before scaling.
    sent: [u8; MOST_COSTS],
}

impl Room {
    /// Cleared room.
    pub fn new() -> Room {
        Room {
            arrived: [0; MOST_COSTS],
            sent: [0; MOST_COSTS],
        }
    }
}

/// "Decode: code, 12, 13, 2, 3, 4.", then 19. The answer is 0 (found) or 1 (not found), with t.
#[inline(never)]
pub fn decode(
    code: &[u8],
    frame: &[u8],
    symbols: &mut [u8],
    costs: &mut [u16],
    store: &mut [u8],
    margins: &mut [u16],
) -> Result<(u8, u8), Refusal> {
    decode_by(code, frame, symbols, costs, store, margins, run)
}

/// Refuses as above, or puts the frame into the cost buffer, makes a run on the used parts of the buffers and leaves the
/// margins.
#[inline(always)]
pub fn decode_by<T>(
    code: &[u8],
    frame: &[u8],
    symbols: &mut [u8],
    costs: &mut [u16],
    store: &mut [u8],
    margins: &mut [u16],
    run: impl FnOnce(&Code, &mut [u8], &mut [u16], &mut [u8]) -> T,
) -> Result<T, Refusal> {
    let code = Code::read(code)?;
    let q = code.rule.q;
    let length = code.n * q;
    accepted::costs(code.n, q, frame)?;
    if symbols.len() < code.n {
        return Err(2);
    }
    if costs.len() < length {
        return Err(3);
    }
    let used = code.store_length();
    if store.len() < used {
        return Err(4);
    }
    let margins = margins.get_mut(..code.n).ok_or(19)?;
    for (cost, &first) in costs.iter_mut().zip(frame) {
        *cost = u16::from(first);
    }
    let symbols = &mut symbols[..code.n];
    let costs = &mut costs[..length];
    let answer = run(&code, symbols, costs, &mut store[..used]);
    for (margin, column) in margins.iter_mut().zip(costs.chunks_exact(q)) {
        *margin = Decision::of(column).margin;
    }
    Ok(answer)
}

/// "If the decisions satisfy every check: found, t = 0." Then iteration by iteration.
fn run(code: &Code, symbols: &mut [u8], costs: &mut [u16], store: &mut [u8]) -> (u8, u8) {
    let mut room = Room::new();
    let mut t = 0;
    loop {
        if settled(code, costs, symbols) {
            return (0, t);
        }
        if t == code.limit {
            return (1, t);
        }
        iterate(code, t == 0, costs, store, &mut room);
        t += 1;
    }
}

/// "the decisions (smallest symbol of cost 0 in P_n)", and whether they satisfy every check.
#[inline(always)]
pub fn settled(code: &Code, costs: &[u16], symbols: &mut [u8]) -> bool {
    let columns = costs.chunks_exact(code.rule.q);
    for (symbol, column) in symbols.iter_mut().zip(columns) {
        *symbol = Decision::of(column).symbol;
    }
    code.checks().all(|check| satisfied(code, check, symbols))
}

/// "It is satisfied when the sum of h_n times x_n is 0."
#[inline(always)]
pub fn satisfied(code: &Code, (columns, weights): Check, symbols: &[u8]) -> bool {
    let edges = columns.iter().zip(weights);
    let term = |(&column, &weight): (&u16, &u8)| {
        let product = product(code.rule.p, weight, symbols[usize::from(column)]);
        product.unwrap_or(0)
    };
    edges.map(term).fold(0, |sum, term| sum ^ term) == 0
}

/// "An iteration adds 1 to t and takes the checks in code order."
fn iterate(code: &Code, first: bool, costs: &mut [u16], store: &mut [u8], room: &mut Room) {
    let mut records = store;
    for check in code.checks() {
        let (record, others) = records.split_at_mut(code.rule.record_length(check.0.len()));
        update(code, check, first, costs, record, room);
        records = others;
    }
}

/// One update of a check.
#[inline(always)]
pub fn update(
    code: &Code,
    (columns, weights): Check,
    first: bool,
    costs: &mut [u16],
    record: &mut [u8],
    room: &mut Room,
) {
    let q = code.rule.q;
    let arrived = &mut room.arrived[..columns.len() * q];
    let sent = &mut room.sent[..columns.len() * q];
    if first {
        sent.fill(0);
    } else {
        // Like `messages` below, it is not refused.
        let _ = expand_by(code.rule, weights, record, sent);
    }
    let parts = sent.chunks_exact(q).zip(arrived.chunks_exact_mut(q));
    for (&column, (sent, arrived)) in columns.iter().zip(parts) {
        let costs = &costs[usize::from(column) * q..][..q];
        incoming(code.g, costs, sent, arrived);
    }
    let _ = messages(code.rule, weights, arrived, record, Some(sent));
    let parts = sent.chunks_exact(q).zip(arrived.chunks_exact(q));
    for (&column, (sent, arrived)) in columns.iter().zip(parts) {
        let costs = &mut costs[usize::from(column) * q..][..q];
        outgoing(code.g, arrived, sent, costs);
    }
}

/// "The scaled cost is floor(g times sent cost / 16)."
fn scaled(g: u16, sent: u8) -> u16 {
    g * u16::from(sent) / 16
}

/// Q of one column; each difference is raised by 255, so that none is below 0.
fn incoming(g: u16, costs: &[u16], sent: &[u8], arrived: &mut [u8]) {
    let raised = |(&cost, &sent): (&u16, &u8)| cost + 255 - scaled(g, sent);
    let differences = costs.iter().zip(sent).map(raised);
    let least = differences.clone().fold(u16::MAX, u16::min);
    for (arrived, difference) in arrived.iter_mut().zip(differences) {
        *arrived = (difference - least).min(255) as u8;
    }
}

/// The new P of one column.
fn outgoing(g: u16, arrived: &[u8], sent: &[u8], costs: &mut [u16]) {
    let sum = |(&arrived, &sent): (&u8, &u8)| u16::from(arrived) + scaled(g, sent);
    let sums = arrived.iter().zip(sent).map(sum);
    let least = sums.clone().fold(u16::MAX, u16::min);
    for (cost, sum) in costs.iter_mut().zip(sums) {
        *cost = sum - least;
    }
}
