//! The decoder that stops inside an iteration. After an update its check's columns alone can be decided otherwise, so
//! they are decided again. Where a symbol changed, the test goes round from the check at which it failed after an
//! earlier update, at first from the first check.

use super::code::{Code, Place};
use super::decode::{decode_by, satisfied, settled, update, Room};
use crate::accepted::Refusal;
use crate::decision::Decision;

/// "It refuses as decoding does." The answer is 0 (found) or 1 (not found), with "the number of check updates".
#[inline(never)]
pub fn decode_early(
    code: &[u8],
    frame: &[u8],
    symbols: &mut [u8],
    costs: &mut [u16],
    store: &mut [u8],
    margins: &mut [u16],
) -> Result<(u8, u16), Refusal> {
    decode_by(code, frame, symbols, costs, store, margins, run)
}

/// "tested at the start and after each check update"
fn run(code: &Code, symbols: &mut [u8], costs: &mut [u16], store: &mut [u8]) -> (u8, u16) {
    let mut room = Room::new();
    if settled(code, costs, symbols) {
        return (0, 0);
    }
    let (mut updates, mut from) = (0, Place::FIRST);
    for t in 0..code.limit {
        let mut records = &mut *store;
        for check in code.checks() {
            let (record, others) = records.split_at_mut(code.rule.record_length(check.0.len()));
            update(code, check, t == 0, costs, record, &mut room);
            records = others;
            updates += 1;
            if !decide_again(code.rule.q, check.0, costs, symbols) {
                continue;
            }
            match unsatisfied(code, from, symbols) {
                Some(place) => from = place,
                None => return (0, updates),
            }
        }
    }
    (1, updates)
}

/// Decides the columns of a check again, and answers whether a symbol is another one now.
fn decide_again(q: usize, columns: &[u16], costs: &[u16], symbols: &mut [u8]) -> bool {
    let mut changed = false;
    for &column in columns {
        let column = usize::from(column);
        let symbol = Decision::of(&costs[column * q..][..q]).symbol;
        changed |= symbols[column] != symbol;
        symbols[column] = symbol;
    }
    changed
}

/// A check that the symbols do not satisfy: the first from a place on, or else the first before it.
fn unsatisfied(code: &Code, from: Place, symbols: &[u8]) -> Option<Place> {
    let first = |from, to| {
        let mut checks = code.checks_between(from, to);
        let found = checks.find(|&(_, check)| !satisfied(code, check, symbols));
        found.map(|(place, _)| place)
    };
    first(from, code.m).or_else(|| first(Place::FIRST, from.check))
}
