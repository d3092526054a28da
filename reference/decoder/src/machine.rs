//! The layered decoder. Document 01, "Layered machine": "Its state: the costs P_n(x) (0 to 510), a
//! record or none for each check, and the iteration number t." The margins of its decisions are those of
//! document 02, §6.

use crate::check::{accept_costs, Messages};
use crate::code::{code_line, Code};
use crate::decision::Decision;
use crate::field::sum;
use crate::record;
use crate::refusal::Refusal;

/// "cap at 255"
const COST_CAP: i32 = 255;

/// "The result is found (0) or not found (1), with t."
#[derive(Clone, Copy, Debug, PartialEq, Eq)]
pub enum Outcome {
    /// The decisions satisfy every check after this many iterations.
    Found(u8),
    /// The decisions do not satisfy every check after this many iterations, the limit.
    NotFound(u8),
}

impl Outcome {
    /// "found (0) or not found (1)"
    pub fn status(self) -> u8 {
        match self {
            Outcome::Found(_) => 0,
            Outcome::NotFound(_) => 1,
        }
    }

    /// t.
    pub fn iterations(self) -> u8 {
        match self {
            Outcome::Found(t) | Outcome::NotFound(t) => t,
        }
    }
}

/// Decodes one frame. Order: "Decode: code, 12, 13, 2, 3, 4.", and document 02, §6: "19, margin buffer
/// shorter than N, after 4". "The symbol buffer then holds the N decisions, the cost buffer (16-bit
/// numbers) holds P, N times q of them, and the record store holds the records end to end in code order.
/// With t = 0 the store is untouched." Document 02, §6: "Decoding fills a second lent buffer with N margins,
/// 16 bits each, from the final P."
///
/// A store too short is refused whatever t would be.
pub fn decode(
    code: &[u8],
    frame: &[u8],
    symbols: &mut [u8],
    costs: &mut [u16],
    store: &mut [u8],
    margins: &mut [u16],
) -> Result<Outcome, Refusal> {
    let lengths = [symbols.len(), costs.len(), store.len(), margins.len()];
    let code = accept(code, frame, lengths)?;
    let mut machine = Machine::start(&code, frame);
    let outcome = machine.run();
    machine.fill(symbols, costs, store, margins);
    Ok(outcome)
}

/// The code of a decoding that is not refused, in buffers of these lengths: symbols, costs, store and margins.
pub fn accept(code: &[u8], frame: &[u8], lengths: [usize; 4]) -> Result<Code, Refusal> {
    let code = code_line(code)?;
    accept_costs(code.field(), code.n, frame)?;
    accept_lengths(lengths, code.lengths())?;
    Ok(code)
}

/// Refusals 2, 3, 4 and 19 of buffers of these lengths where these are needed.
pub fn accept_lengths(lengths: [usize; 4], needed: [usize; 4]) -> Result<(), Refusal> {
    let refusals = [
        Refusal::ShortBuffer,
        Refusal::ShortCosts,
        Refusal::ShortStore,
        Refusal::ShortMargins,
    ];
    let pairs = lengths.into_iter().zip(needed);
    match pairs
        .zip(refusals)
        .find(|((length, needed), _)| length < needed)
    {
        Some((_, refusal)) => Err(refusal),
        None => Ok(()),
    }
}

/// The state of one run.
#[derive(Clone, Debug, PartialEq, Eq)]
pub struct Machine<'a> {
    code: &'a Code,
    /// P_n(x), as `costs[n][x]`.
    pub costs: Vec<Vec<i32>>,
    /// The record of each check, none before its first update.
    pub records: Vec<Option<Vec<u8>>>,
    /// The messages at the last update of each check, none before its first: "its hard decisions,
    /// shifts and sent costs are those of this Q". The machine does not read them again.
    pub last_messages: Vec<Option<Messages>>,
    /// t.
    pub iterations: u8,
}

impl<'a> Machine<'a> {
    /// "Start: P is the frame, no records, t = 0." The frame is accepted under the code.
    pub fn start(code: &'a Code, frame: &[u8]) -> Machine<'a> {
        let column = |costs: &[u8]| costs.iter().map(|&cost| i32::from(cost)).collect();
        Machine {
            code,
            costs: frame.chunks(code.field().size()).map(column).collect(),
            records: vec![None; code.m],
            last_messages: vec![None; code.m],
            iterations: 0,
        }
    }

    /// The state after t iterations that left these costs and records. Document 02, §8: "An iteration goes on
    /// from the lent costs and records, with t in byte 3"; with t = 0 no check has a record. The used parts are
    /// those of the code, and the records have accepted form.
    pub fn going_on(code: &'a Code, costs: &[u16], store: &[u8], t: u8) -> Machine<'a> {
        let column = |costs: &[u16]| costs.iter().map(|&cost| i32::from(cost)).collect();
        let costs = &costs[..code.frame_length()];
        let record = |record: &[u8]| (t > 0).then(|| record.to_vec());
        Machine {
            code,
            costs: costs.chunks(code.field().size()).map(column).collect(),
            records: code.records(store).into_iter().map(record).collect(),
            last_messages: vec![None; code.m],
            iterations: t,
        }
    }

    /// Runs from the start to the result.
    pub fn run(&mut self) -> Outcome {
        loop {
            if self.satisfies_every_check() {
                return Outcome::Found(self.iterations);
            }
            // "Otherwise, if t = I, not found." At the start t is 0 and I is at least 1.
            if self.iterations == self.code.limit {
                return Outcome::NotFound(self.iterations);
            }
            self.iterate();
        }
    }

    /// "the decisions (smallest symbol of cost 0 in P_n)", each with its margin.
    pub fn decisions(&self) -> Vec<Decision> {
        self.costs.iter().map(|costs| Decision::of(costs)).collect()
    }

    /// Fills the used parts of lent buffers with the decisions, costs, records and margins of this state.
    pub fn fill(
        &self,
        symbols: &mut [u8],
        costs: &mut [u16],
        store: &mut [u8],
        margins: &mut [u16],
    ) {
        let decided = symbols.iter_mut().zip(margins.iter_mut());
        for ((symbol, margin), decision) in decided.zip(self.decisions()) {
            (*symbol, *margin) = (decision.symbol, decision.margin);
        }
        for (out, &cost) in costs.iter_mut().zip(self.costs.iter().flatten()) {
            *out = u16::try_from(cost).expect("P is 0 to 510");
        }
        // With t = 0 no check has a record, so nothing is written here. Document 02, §13: "Checks not yet updated keep
        // the old bytes of their place in the store".
        for (place, record) in self.code.places().into_iter().zip(&self.records) {
            if let Some(record) = record {
                store[place].copy_from_slice(record);
            }
        }
    }

    /// Whether the decisions satisfy every check.
    pub fn satisfies_every_check(&self) -> bool {
        let decisions = self.decisions();
        self.code.checks.iter().all(|check| {
            let terms = check
                .columns
                .iter()
                .zip(&check.weights)
                .map(|(&column, &weight)| (weight, decisions[column].symbol))
                .map(|(weight, symbol)| self.code.field().product(weight, symbol));
            sum(terms) == 0
        })
    }

    /// "An iteration adds 1 to t and takes the checks in code order."
    pub fn iterate(&mut self) {
        self.iterations += 1;
        for check in 0..self.code.m {
            self.update(check);
        }
    }

    /// One update of the check with this place in code order: "Work out the new record." "The new P
    /// is Q plus the scaled cost, less its least over x."
    pub fn update(&mut self, check: usize) {
        let rule = self.code.rule();
        let node = &self.code.checks[check];
        let brought = self.brought_costs(check);
        let messages = Messages::new(rule, &node.weights, &brought);
        let columns = node.columns.iter().zip(brought.chunks(rule.field().size()));
        for ((&column, brought), sent) in columns.zip(&messages.sent) {
            let sums = brought.iter().zip(self.scaled(sent));
            let sums = sums.map(|(&cost, scaled)| i32::from(cost) + scaled);
            self.costs[column] = less_the_least(sums.collect());
        }
        self.records[check] = Some(record::pack(rule, &messages));
        self.last_messages[check] = Some(messages);
    }

    /// Q, column by column: "For each column of the check, subtract the old record's scaled cost (0
    /// if none), subtract the least over x, and cap at 255; this is Q."
    fn brought_costs(&self, check: usize) -> Vec<u8> {
        let rule = self.code.rule();
        let q = rule.field().size();
        let node = &self.code.checks[check];
        let old = match &self.records[check] {
            Some(record) => self.scaled(&record::expansion(rule, &node.weights, record)),
            None => vec![0; node.weights.len() * q],
        };
        let mut brought = Vec::new();
        for (&column, old) in node.columns.iter().zip(old.chunks(q)) {
            let differences = self.costs[column].iter().zip(old);
            let differences = differences.map(|(cost, old)| cost - old).collect();
            for cost in less_the_least(differences) {
                brought.push(capped(cost));
            }
        }
        brought
    }

    /// "The scaled cost is floor(g times sent cost / 16)."
    fn scaled(&self, sent: &[u8]) -> Vec<i32> {
        let g = i32::from(self.code.g);
        sent.iter().map(|&cost| g * i32::from(cost) / 16).collect()
    }
}

/// The costs of a column, each less the least of them.
pub(crate) fn less_the_least(costs: Vec<i32>) -> Vec<i32> {
    let least = costs.iter().min().expect("a column has q costs");
    costs.iter().map(|cost| cost - least).collect()
}

/// A cost less the least of its column, "cap at 255".
pub(crate) fn capped(cost: i32) -> u8 {
    u8::try_from(cost.min(COST_CAP)).expect("a cost is not below the least")
}
