//! The textbook engine for one check: forward and backward sweeps over the trellis. Document 02, §7:
//! "For one check it keeps, for each partial sum and each count of deviations up to k, the least cost
//! over the columns before n, and the same over the columns after n, and joins the two sweeps for
//! column n." The work is some d q² (k + 1)(k + 2) / 2 joins. GREATEST is whether a choice costs the
//! greatest of its columns' costs, and not their sum.

use simulate::field::Field;
use simulate::layered::{hard_decision, CheckRule};

/// Stands where no choice exists. Twice this still fits, and every cost of a choice is smaller.
const NONE: u16 = 30_000;

/// The least cost for each count of deviations, 0 to k, and each partial sum.
type Costs = Vec<Vec<u16>>;

/// The sweeps, with their tables kept from call to call.
#[derive(Clone, Debug)]
pub struct Sweeps<const GREATEST: bool> {
    /// k.
    deviations: usize,
    /// Over the columns before n, for each n.
    before: Vec<Costs>,
    /// Over the columns after the one at hand.
    after: Costs,
    next: Costs,
}

impl<const GREATEST: bool> Sweeps<GREATEST> {
    /// The sweeps for choices with at most so many deviations.
    pub fn new(deviations: usize) -> Self {
        let costs = vec![Vec::new(); deviations + 1];
        Sweeps {
            deviations,
            before: Vec::new(),
            after: costs.clone(),
            next: costs,
        }
    }
}

impl<const GREATEST: bool> CheckRule for Sweeps<GREATEST> {
    fn send(&mut self, q: usize, terms: &[u8], brought: &[u8], sent: &mut [u8]) {
        let columns = terms.chunks_exact(q).zip(brought.chunks_exact(q));
        let degree = brought.len() / q;
        self.before
            .resize(degree, vec![Vec::new(); self.deviations + 1]);
        start(q, &mut self.before[0]);
        // Nothing is asked over the columns before or after all of them, so no sweep takes its last.
        for (n, (terms, costs)) in columns.clone().enumerate().take(degree - 1) {
            let (known, next) = self.before.split_at_mut(n + 1);
            step::<GREATEST>(q, terms, costs, &known[n], &mut next[0]);
        }
        start(q, &mut self.after);
        let columns = columns.zip(sent.chunks_exact_mut(q)).enumerate();
        for (n, ((terms, costs), sent)) in columns.rev() {
            join::<GREATEST>(terms, &self.before[n], &self.after, sent);
            if n > 0 {
                step::<GREATEST>(q, terms, costs, &self.after, &mut self.next);
                std::mem::swap(&mut self.after, &mut self.next);
            }
        }
    }
}

/// Over no column: sum 0 without deviations costs 0, and nothing else exists.
fn start(q: usize, costs: &mut Costs) {
    for count in costs.iter_mut() {
        count.clear();
        count.resize(q, NONE);
    }
    costs[0][0] = 0;
}

/// The cost of two parts of a choice together.
fn joined<const GREATEST: bool>(one: u16, other: u16) -> u16 {
    if GREATEST {
        one.max(other)
    } else {
        one + other
    }
}

/// One column more: from the costs over some columns to those over these and this one.
fn step<const GREATEST: bool>(
    q: usize,
    terms: &[u8],
    costs: &[u8],
    known: &Costs,
    next: &mut Costs,
) {
    let decision = hard_decision(costs);
    for (count, next) in next.iter_mut().enumerate() {
        next.clear();
        next.resize(q, NONE);
        for (symbol, (&term, &cost)) in terms.iter().zip(costs).enumerate() {
            let earlier = match (symbol == decision, count) {
                (true, _) => &known[count],
                (false, 0) => continue,
                (false, _) => &known[count - 1],
            };
            for (sum, &earlier) in earlier.iter().enumerate() {
                let least = &mut next[sum ^ usize::from(term)];
                let cost = joined::<GREATEST>(earlier, u16::from(cost));
                *least = cost.min(*least).min(NONE);
            }
        }
    }
}

/// "joins the two sweeps for column n": the cost sent at x is the least over the sums and counts
/// before and after n that make h_n times x with at most k deviations.
fn join<const GREATEST: bool>(terms: &[u8], before: &Costs, after: &Costs, sent: &mut [u8]) {
    for (sent, &term) in sent.iter_mut().zip(terms) {
        let mut least = NONE;
        for (count, before) in before.iter().enumerate() {
            for after in &after[..after.len() - count] {
                for (sum, &before) in before.iter().enumerate() {
                    let other = sum ^ usize::from(term);
                    least = joined::<GREATEST>(before, after[other]).min(least);
                }
            }
        }
        *sent = least as u8;
    }
}

/// The sweeps as a call on one check that writes the same record as document 01's check. The input
/// is an accepted one.
#[derive(Clone, Debug)]
pub struct Engine<const GREATEST: bool> {
    field: Field,
    sweeps: Sweeps<GREATEST>,
    /// h_n times x, column by column.
    terms: Vec<u8>,
    /// The sent costs, column by column.
    sent: Vec<u8>,
}

impl<const GREATEST: bool> Engine<GREATEST> {
    /// The engine for p and k.
    pub fn new(p: u8, deviations: usize) -> Self {
        Engine {
            field: Field::new(p),
            sweeps: Sweeps::new(deviations),
            terms: Vec::new(),
            sent: Vec::new(),
        }
    }

    /// Writes the record of a check: "d shift bytes, s_0 first", then "1 + 2k bytes a symbol".
    pub fn check(&mut self, weights: &[u8], costs: &[u8], record: &mut [u8]) {
        let (q, field) = (self.field.size(), &self.field);
        self.terms.clear();
        for &weight in weights {
            let symbols = (0..q).map(|x| field.product(weight, x as u8));
            self.terms.extend(symbols);
        }
        self.sent.resize(costs.len(), 0);
        self.sweeps.send(q, &self.terms, costs, &mut self.sent);

        let (shifts, groups) = record.split_at_mut(weights.len());
        let columns = self.terms.chunks_exact(q).zip(costs.chunks_exact(q));
        for (shift, (terms, costs)) in shifts.iter_mut().zip(columns) {
            *shift = terms[hard_decision(costs)];
        }
        let sum = shifts.iter().fold(0, |sum, term| sum ^ term);
        shifts.iter_mut().for_each(|shift| *shift ^= sum);
        self.pack(q, shifts, groups);
    }

    /// "The columns are those with S_n(a) greater than E(a), rising; an unused pair is FF 00." Document
    /// 02, §1: "E(a) is therefore the least of S_n(a) over the columns, at each degree."
    fn pack(&self, q: usize, shifts: &[u8], groups: &mut [u8]) {
        let columns = || {
            let columns = self.terms.chunks_exact(q).zip(self.sent.chunks_exact(q));
            columns.zip(shifts).flat_map(|((terms, sent), &shift)| {
                let sums = terms.iter().map(move |&term| usize::from(term ^ shift));
                sums.zip(sent)
            })
        };
        let length = 1 + 2 * self.sweeps.deviations;
        for group in groups.chunks_exact_mut(length) {
            group[0] = 0xFF;
            let (pairs, _) = group[1..].as_chunks_mut();
            pairs.fill([0xFF, 0x00]);
        }
        for (a, &cost) in columns().filter(|&(a, _)| a > 0) {
            let extra = &mut groups[(a - 1) * length];
            *extra = cost.min(*extra);
        }
        for (place, (a, &cost)) in columns().enumerate().filter(|&(_, (a, _))| a > 0) {
            let group = &mut groups[(a - 1) * length..][..length];
            if cost > group[0] {
                let (pairs, _) = group[1..].as_chunks_mut();
                let unused = pairs.iter().position(|pair| pair[0] == 0xFF);
                pairs[unused.expect("a pair for each column")] = [(place / q) as u8, cost];
            }
        }
    }
}
