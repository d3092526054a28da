//! The packed record and its expansion. Document 01, "Record": "A record has d shift bytes, s_0
//! first, then five bytes for each a from 1 to q - 1: E(a), column, its S, column, its S." Document
//! 02, §3: "A record then has 1 + 2k bytes a symbol, with up to k pairs, and each reader of the store
//! follows."

use crate::check::{accept_weights, Messages};
use crate::refusal::Refusal;
use crate::rule::Rule;

/// "an unused pair is FF 00"
const UNUSED: [u8; 2] = [0xFF, 0];

/// "1 + 2k bytes a symbol"
fn entry_length(rule: Rule) -> usize {
    1 + 2 * rule.deviations()
}

/// "Length: d + 5(q - 1)", with 1 + 2k in the place of 5.
pub fn length(rule: Rule, degree: usize) -> usize {
    degree + entry_length(rule) * (rule.field().size() - 1)
}

/// The record of one check's messages. "The columns are those with S_n(a) greater than E(a),
/// rising; an unused pair is FF 00." Never more than k are needed.
pub fn pack(rule: Rule, messages: &Messages) -> Vec<u8> {
    let mut record = messages.shifts.clone();
    for (a, &extra) in messages.extra.iter().enumerate().skip(1) {
        let greater = (0u8..)
            .zip(&messages.sent_at_sum)
            .map(|(n, costs)| [n, costs[a]])
            .filter(|&[_, cost]| cost > extra);
        let mut pairs: Vec<[u8; 2]> = greater.collect();
        assert!(pairs.len() <= rule.deviations(), "never more are needed");
        pairs.resize(rule.deviations(), UNUSED);
        record.push(extra);
        record.extend(pairs.as_flattened());
    }
    record
}

/// Writes the sent costs that a record stands for. The degree is the number of weights.
/// Order: "Expand: 6, 9, 11, 16, 2." "A record of accepted form expands even if no check wrote it."
pub fn expand(first: u8, weights: &[u8], record: &[u8], out: &mut [u8]) -> Result<usize, Refusal> {
    let rule = accept(first, weights, record)?;
    let written = weights.len() * rule.field().size();
    if out.len() < written {
        return Err(Refusal::ShortBuffer);
    }
    out[..written].copy_from_slice(&expansion(rule, weights, record));
    Ok(written)
}

/// The rule of a record that is not refused. Order: "6, 9, 11, 16".
pub fn accept(first: u8, weights: &[u8], record: &[u8]) -> Result<Rule, Refusal> {
    let rule = Rule::new(first)?;
    accept_weights(rule.field(), weights)?;
    if !has_accepted_form(rule, weights.len(), record) {
        return Err(Refusal::Record);
    }
    Ok(rule)
}

/// Whether refusal 16 does not apply: "16, length wrong, shift not below q, an unused pair that is
/// not FF 00 or stands before a used one, columns not rising or not below d, or S not above E."
pub fn has_accepted_form(rule: Rule, degree: usize, record: &[u8]) -> bool {
    if record.len() != length(rule, degree) {
        return false;
    }
    let (shifts, entries) = record.split_at(degree);
    shifts.iter().all(|&shift| rule.field().contains(shift))
        && entries
            .chunks_exact(entry_length(rule))
            .all(|entry| entry_has_accepted_form(degree, entry))
}

/// [`has_accepted_form`] for the bytes of one a: used pairs, then unused ones.
fn entry_has_accepted_form(degree: usize, entry: &[u8]) -> bool {
    let (extra, pairs) = (entry[0], pairs(entry));
    let first_unused = pairs.iter().position(|&pair| pair == UNUSED);
    let (used, unused) = pairs.split_at(first_unused.unwrap_or(pairs.len()));
    let in_range = |&[n, cost]: &[u8; 2]| usize::from(n) < degree && cost > extra;
    used.iter().all(in_range)
        && used.windows(2).all(|pair| pair[0][0] < pair[1][0])
        && unused.iter().all(|&pair| pair == UNUSED)
}

/// The pairs in the bytes of one a, each a column and its S.
fn pairs(entry: &[u8]) -> &[[u8; 2]] {
    let (pairs, _) = entry[1..].as_chunks();
    pairs
}

/// "Expansion writes d times q unscaled bytes, column by column, each column by x." The record has
/// accepted form.
pub fn expansion(rule: Rule, weights: &[u8], record: &[u8]) -> Vec<u8> {
    let (field, entry_length) = (rule.field(), entry_length(rule));
    let (shifts, entries) = record.split_at(weights.len());
    let entries: Vec<&[u8]> = entries.chunks_exact(entry_length).collect();
    let mut sent = Vec::new();
    for ((n, &weight), &shift) in (0u8..).zip(weights).zip(shifts) {
        for x in field.elements() {
            let a = field.product(weight, x) ^ shift;
            sent.push(match a {
                0 => 0,
                _ => sent_cost(entries[usize::from(a) - 1], n),
            });
        }
    }
    sent
}

/// "the S beside n if a's pairs list n, else E(a)", for the bytes of one a.
fn sent_cost(entry: &[u8], n: u8) -> u8 {
    let listed = pairs(entry).iter().find(|pair| pair[0] == n);
    listed.map_or(entry[0], |&[_, cost]| cost)
}
