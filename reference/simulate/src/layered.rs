//! The layered schedule around any rule for one check, with plain messages: document 01's machine
//! with the sent costs of each check kept as d times q bytes where document 01 keeps a record. With
//! document 01's rule it decodes as document 01 does; a test compares it with the reference decoder.

use crate::code::Code;
use crate::decoder::{Decoder, Outcome};

/// The rule for one check.
pub trait CheckRule {
    /// Works out the cost sent to each column at each symbol, column by column. `terms` holds h_n
    /// times x and `brought` Q_n(x), both in the same order; each column has q of them and a cost of
    /// 0.
    fn send(&mut self, q: usize, terms: &[u8], brought: &[u8], sent: &mut [u8]);
}

/// "z_n is the smallest symbol of cost 0": of a column that has one.
pub fn hard_decision<T: Default + PartialEq>(costs: &[T]) -> usize {
    let zero = T::default();
    let symbol = costs.iter().position(|cost| *cost == zero);
    symbol.expect("a column has a cost of 0")
}

/// A decoder with one rule.
pub struct Layered<'a, R> {
    code: &'a Code,
    rule: R,
    g: u16,
    limit: u8,
    /// h_n times x of every edge, in code order.
    terms: Vec<u8>,
    /// P, column by column.
    costs: Vec<u16>,
    /// The sent costs of every edge at its check's last update, 0 before the first.
    sent: Vec<u8>,
    /// Q of the check at hand.
    brought: Vec<u8>,
    symbols: Vec<u8>,
}

impl<'a, R: CheckRule> Layered<'a, R> {
    /// A decoder of the code with scale g and iteration limit I.
    pub fn new(code: &'a Code, g: u8, limit: u8, rule: R) -> Layered<'a, R> {
        let symbols = 0..code.field.size();
        let edges = code.checks.iter().flatten();
        let terms: Vec<u8> = edges
            .flat_map(|edge| {
                let product = |x| code.field.product(edge.weight, x as u8);
                symbols.clone().map(product)
            })
            .collect();
        Layered {
            code,
            rule,
            g: u16::from(g),
            limit,
            sent: vec![0; terms.len()],
            terms,
            costs: vec![0; code.frame_length()],
            brought: Vec::new(),
            symbols: vec![0; code.columns],
        }
    }

    /// P, column by column, after a decoding.
    pub fn costs(&self) -> &[u16] {
        &self.costs
    }

    /// "An iteration adds 1 to t and takes the checks in code order."
    fn iterate(&mut self) {
        let q = self.code.field.size();
        let mut from = 0;
        for check in &self.code.checks {
            let part = from..from + check.len() * q;
            let sent = &mut self.sent[part.clone()];
            self.brought.clear();
            for (edge, sent) in check.iter().zip(sent.chunks_exact(q)) {
                let costs = &self.costs[edge.column * q..][..q];
                bring(self.g, costs, sent, &mut self.brought);
            }
            let terms = &self.terms[part.clone()];
            self.rule.send(q, terms, &self.brought, sent);
            let columns = self.brought.chunks_exact(q).zip(sent.chunks_exact(q));
            for (edge, (brought, sent)) in check.iter().zip(columns) {
                let costs = &mut self.costs[edge.column * q..][..q];
                take(self.g, brought, sent, costs);
            }
            from = part.end;
        }
    }

    /// The decisions, and whether they satisfy every check.
    fn decide(&mut self) -> bool {
        let q = self.code.field.size();
        for (symbol, costs) in self.symbols.iter_mut().zip(self.costs.chunks_exact(q)) {
            *symbol = hard_decision(costs) as u8;
        }
        self.code.is_word(&self.symbols)
    }
}

impl<R: CheckRule> Decoder for Layered<'_, R> {
    fn decode(&mut self, frame: &[u8]) -> Outcome {
        for (cost, &first) in self.costs.iter_mut().zip(frame) {
            *cost = u16::from(first);
        }
        self.sent.fill(0);
        let mut iterations = 0;
        loop {
            let found = self.decide();
            if found || iterations == self.limit {
                return Outcome { found, iterations };
            }
            self.iterate();
            iterations += 1;
        }
    }

    fn symbols(&self) -> &[u8] {
        &self.symbols
    }
}

/// "The scaled cost is floor(g times sent cost / 16)."
fn scaled(g: u16, sent: u8) -> u16 {
    g * u16::from(sent) / 16
}

/// Q of one column: "subtract the old record's scaled cost (0 if none), subtract the least over x,
/// and cap at 255". Every difference is raised by 255, so that none is below 0; the least takes it
/// away again.
fn bring(g: u16, costs: &[u16], sent: &[u8], brought: &mut Vec<u8>) {
    let raised = |(&cost, &sent): (&u16, &u8)| cost + 255 - scaled(g, sent);
    let differences = costs.iter().zip(sent).map(raised);
    let least = differences.clone().min().expect("a column has q costs");
    brought.extend(differences.map(|difference| (difference - least).min(255) as u8));
}

/// "The new P is Q plus the scaled cost, less its least over x."
fn take(g: u16, brought: &[u8], sent: &[u8], costs: &mut [u16]) {
    let sum = |(&brought, &sent): (&u8, &u8)| u16::from(brought) + scaled(g, sent);
    let sums = brought.iter().zip(sent).map(sum);
    let least = sums.clone().min().expect("a column has q costs");
    for (cost, sum) in costs.iter_mut().zip(sums) {
        *cost = sum - least;
    }
}
