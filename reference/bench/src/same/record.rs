//! The record of one check, and the costs that it sends.

use super::joins::COPIES;
use super::lanes::{Block, LANES};
use super::rule::{Rule, MOST_DEVIATIONS};
use super::{groups, lines, symbols, tables};
use crate::accepted::{self, Refusal, DEGREES, MOST_COLUMNS};

/// "Check: 6, 9, 11, 12, 13, 4."
pub fn check(first: u8, weights: &[u8], costs: &[u8], out: &mut [u8]) -> Result<usize, Refusal> {
    messages(Rule::of(first)?, weights, costs, out, None)
}

/// The record of a check, and its sent costs where d times q bytes are lent for them. Refused as a check
/// is.
#[inline(never)]
pub fn messages(
    rule: Rule,
    weights: &[u8],
    costs: &[u8],
    record: &mut [u8],
    sent: Option<&mut [u8]>,
) -> Result<usize, Refusal> {
    accepted::weights(rule.p, DEGREES, weights)?;
    accepted::costs(weights.len(), rule.q, costs)?;
    let length = rule.record_length(weights.len());
    let record = record.get_mut(..length).ok_or(4)?;
    match rule.blocks() {
        1 => with_room::<1>(rule, weights, costs, record, sent),
        2 => with_room::<2>(rule, weights, costs, record, sent),
        _ => with_room::<4>(rule, weights, costs, record, sent),
    }
    Ok(length)
}

/// Room for as many columns as there can be, with tables of BLOCKS blocks.
fn with_room<const BLOCKS: usize>(
    rule: Rule,
    weights: &[u8],
    costs: &[u8],
    record: &mut [u8],
    sent: Option<&mut [u8]>,
) {
    let (d, table) = (weights.len(), [[0; LANES]; BLOCKS]);
    let mut products = [table; MOST_COLUMNS];
    let mut lines = [table; MOST_COLUMNS];
    let mut after = [table; MOST_COLUMNS * MOST_DEVIATIONS];
    let mut copies = [table; COPIES];
    let room = Room {
        products: products[..d].as_flattened_mut(),
        lines: lines[..d].as_flattened_mut(),
        after: after[..d * rule.k].as_flattened_mut(),
        copies: copies.as_flattened_mut(),
    };
    room.put(rule, weights, costs, record, sent);
}

/// What a call works in: parts for each column, and copies of one table.
struct Room<'a> {
    products: &'a mut [Block],
    lines: &'a mut [Block],
    after: &'a mut [Block],
    copies: &'a mut [Block],
}

impl Room<'_> {
    /// The record, and the sent costs where they are asked for.
    fn put(
        self,
        rule: Rule,
        weights: &[u8],
        costs: &[u8],
        record: &mut [u8],
        sent: Option<&mut [u8]>,
    ) {
        let (shifts, groups) = record.split_at_mut(weights.len());
        lines::fill(rule, weights, costs, self.products, self.lines, shifts);
        tables::sweep(rule, self.lines, self.after, self.copies);
        groups::put(rule, self.after, groups);
        if let Some(sent) = sent {
            let products = self.products.chunks_exact(rule.blocks());
            let rows = tables::sent_rows(rule, self.after).zip(products);
            let columns = shifts.iter().zip(sent.chunks_exact_mut(rule.q));
            for ((rests, terms), (&shift, sent)) in rows.zip(columns) {
                let cost = |rest| 255 - rest;
                symbols::put(
                    rests.as_flattened(),
                    terms.as_flattened(),
                    shift,
                    cost,
                    sent,
                );
            }
        }
    }
}
