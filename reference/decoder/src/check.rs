//! One check. Document 01, "One check": "a nonzero weight h_n for each column n, numbered from 0. It
//! is satisfied when the sum of h_n times x_n is 0." Document 02, §1: "Degree becomes 2 to 32."
//! Document 02, §3: "The number of deviations becomes k, 2 or 3". Document 02, §5: "The sent cost, S and E
//! use the greatest throughout" in the Min-Max edition.
//!
//! The sent costs are found by listing every choice with at most k deviations. The choices are
//! grouped by their set of deviating columns, so that each is listed once: a choice counts for the
//! cost sent to column n when column n is not one of its deviations. Of the choices of one set that
//! have the same weighted sum only the cheapest goes on to the sets with one column more: neither a sum
//! nor a greatest cost falls where one of its parts rises. The extra column is the least of what is sent.

use std::ops::RangeInclusive;

use crate::decision::Decision;
use crate::field::{sum, Field};
use crate::record;
use crate::refusal::Refusal;
use crate::rule::{Join, Rule};

/// Document 02, §1: "Degree becomes 2 to 32."
pub const DEGREES: RangeInclusive<usize> = 2..=32;

/// Works out one check's messages and writes their record. The degree is the number of weights.
/// Order: "Check: 6, 9, 11, 12, 13, 4." "An accepted check or expansion returns how many bytes it
/// wrote."
pub fn check(first: u8, weights: &[u8], costs: &[u8], record: &mut [u8]) -> Result<usize, Refusal> {
    let rule = accept(first, weights, costs, record.len())?;
    let packed = record::pack(rule, &Messages::new(rule, weights, costs));
    record[..packed.len()].copy_from_slice(&packed);
    Ok(packed.len())
}

/// The rule of a check that is not refused, with a record buffer of this length. Order: "Check: 6, 9,
/// 11, 12, 13, 4."
pub fn accept(first: u8, weights: &[u8], costs: &[u8], room: usize) -> Result<Rule, Refusal> {
    let rule = Rule::new(first)?;
    accept_weights(rule.field(), weights)?;
    accept_costs(rule.field(), weights.len(), costs)?;
    if room < record::length(rule, weights.len()) {
        return Err(Refusal::ShortStore);
    }
    Ok(rule)
}

/// Refusals 9 and 11 of a check given by its weights.
pub fn accept_weights(field: Field, weights: &[u8]) -> Result<(), Refusal> {
    if !DEGREES.contains(&weights.len()) {
        return Err(Refusal::Degree);
    }
    if weights
        .iter()
        .any(|&weight| weight == 0 || !field.contains(weight))
    {
        return Err(Refusal::Weight);
    }
    Ok(())
}

/// Refusals 12 and 13 of costs given column by column.
pub fn accept_costs(field: Field, columns: usize, costs: &[u8]) -> Result<(), Refusal> {
    if costs.len() != columns * field.size() {
        return Err(Refusal::CostCount);
    }
    if costs
        .chunks(field.size())
        .any(|column| !column.contains(&0))
    {
        return Err(Refusal::NoZeroCost);
    }
    Ok(())
}

/// What one check works out from the costs that its columns bring.
#[derive(Clone, Debug, PartialEq, Eq)]
pub struct Messages {
    /// z_n for each column n, with its margin.
    pub decisions: Vec<Decision>,
    /// "The shift s_n is the sum of h_k times z_k over all k other than n."
    pub shifts: Vec<u8>,
    /// The cost sent to column n at symbol x, as `sent[n][x]`.
    pub sent: Vec<Vec<u8>>,
    /// "Write S_n(a) for the cost sent at the x with h_n times x + s_n = a", as
    /// `sent_at_sum[n][a]`.
    pub sent_at_sum: Vec<Vec<u8>>,
    /// E(a), as `extra[a]`. E is for a not 0; `extra[0]` is 0 and in no record.
    pub extra: Vec<u8>,
}

impl Messages {
    /// The messages of an accepted check: weights and costs as [`accept_weights`] and
    /// [`accept_costs`] let them pass.
    pub fn new(rule: Rule, weights: &[u8], costs: &[u8]) -> Messages {
        let columns = Column::all(rule.field(), weights, costs);
        let mut listing = Listing::new(rule, &columns);
        let decisions = Choices::of_decisions(hard_sum(&columns), rule.field().size());
        listing.take(&decisions);
        let sent = listing.sent.iter().map(|costs| bytes(costs)).collect();
        Messages::of_columns(&columns, sent)
    }

    /// The messages of an accepted check for which the sent costs are known.
    pub fn of_sent(field: Field, weights: &[u8], costs: &[u8], sent: Vec<Vec<u8>>) -> Messages {
        Messages::of_columns(&Column::all(field, weights, costs), sent)
    }

    /// All else follows from the columns and the sent costs.
    fn of_columns(columns: &[Column], sent: Vec<Vec<u8>>) -> Messages {
        let (q, hard_sum) = (columns[0].terms.len(), hard_sum(columns));
        let shifts: Vec<u8> = columns
            .iter()
            .map(|column| hard_sum ^ column.hard_term)
            .collect();
        let mut sent_at_sum = vec![vec![0; q]; columns.len()];
        for (n, column) in columns.iter().enumerate() {
            for (&cost, &term) in sent[n].iter().zip(&column.terms) {
                sent_at_sum[n][usize::from(term ^ shifts[n])] = cost;
            }
        }
        Messages {
            decisions: columns.iter().map(|column| column.decision).collect(),
            shifts,
            sent,
            extra: (0..q).map(|a| least_sent(&sent_at_sum, a)).collect(),
            sent_at_sum,
        }
    }
}

/// One column of a check, with what the listing of choices needs of it.
struct Column {
    /// z_n and its margin.
    decision: Decision,
    /// h_n times z_n.
    hard_term: u8,
    /// h_n times x for each symbol x.
    terms: Vec<u8>,
    /// For each symbol x other than z_n: h_n times x plus h_n times z_n, which is what it changes in
    /// a weighted sum, and Q_n(x).
    deviations: Vec<(u8, i32)>,
}

impl Column {
    /// Every column of a check.
    fn all(field: Field, weights: &[u8], costs: &[u8]) -> Vec<Column> {
        let columns = weights.iter().zip(costs.chunks(field.size()));
        columns
            .map(|(&weight, costs)| Column::new(field, weight, costs))
            .collect()
    }

    fn new(field: Field, weight: u8, costs: &[u8]) -> Column {
        let decision = Decision::of(costs);
        let symbols = field.elements();
        let terms: Vec<u8> = symbols.clone().map(|x| field.product(weight, x)).collect();
        let hard_term = terms[usize::from(decision.symbol)];
        // "A deviation is a column whose chosen symbol is not z_n."
        let deviations = symbols
            .filter(|&x| x != decision.symbol)
            .map(usize::from)
            .map(|x| (terms[x] ^ hard_term, i32::from(costs[x])))
            .collect();
        Column {
            decision,
            hard_term,
            terms,
            deviations,
        }
    }
}

/// The sum of all h_n times z_n.
fn hard_sum(columns: &[Column]) -> u8 {
    sum(columns.iter().map(|column| column.hard_term))
}

/// The choices for all columns whose deviations are exactly the columns of a set.
struct Choices {
    /// The set, rising.
    set: Vec<usize>,
    /// The least cost at each weighted sum; none where no choice has it.
    least: Vec<Option<i32>>,
}

impl Choices {
    /// The one choice without a deviation. It costs 0, and so does every column that keeps z_n.
    fn of_decisions(hard_sum: u8, q: usize) -> Choices {
        let mut least = vec![None; q];
        least[usize::from(hard_sum)] = Some(0);
        Choices { set: vec![], least }
    }

    /// These choices with one deviation more, in column n: its cost is joined with theirs.
    fn with_deviation(&self, join: Join, n: usize, column: &Column) -> Choices {
        let mut more = vec![i32::MAX; self.least.len()];
        for (weighted_sum, cost) in self.least.iter().enumerate() {
            let Some(cost) = cost else { continue };
            for &(change, own) in &column.deviations {
                let entry = &mut more[weighted_sum ^ usize::from(change)];
                *entry = join.with(*cost, own).min(*entry);
            }
        }
        let existing = |&cost: &i32| (cost < i32::MAX).then_some(cost);
        Choices {
            set: [&self.set[..], &[n]].concat(),
            least: more.iter().map(existing).collect(),
        }
    }
}

/// The least costs that each column is sent, over the choices listed so far.
struct Listing<'a> {
    rule: Rule,
    columns: &'a [Column],
    /// By column and symbol; every cost is below what stands where no choice has been listed.
    sent: Vec<Vec<i32>>,
}

impl Listing<'_> {
    fn new(rule: Rule, columns: &[Column]) -> Listing<'_> {
        Listing {
            rule,
            columns,
            sent: vec![vec![i32::MAX; rule.field().size()]; columns.len()],
        }
    }

    /// Lists the choices of a set, and of every set that has higher columns too and at most k in all.
    fn take(&mut self, choices: &Choices) {
        self.send(choices);
        if choices.set.len() == self.rule.deviations() {
            return;
        }
        let higher = choices.set.last().map_or(0, |last| last + 1);
        for n in higher..self.columns.len() {
            self.take(&choices.with_deviation(self.rule.join(), n, &self.columns[n]));
        }
    }

    /// "choices for the other columns that have at most two deviations and whose weighted sum is h_n
    /// times x", where "at most two" reads "at most k": such a choice, with column n at z_n for a cost
    /// of 0, is a listed one whose weighted sum over all columns is h_n times x plus h_n times z_n.
    fn send(&mut self, choices: &Choices) {
        let columns = self.columns.iter().zip(&mut self.sent).enumerate();
        for (_, (column, sent)) in columns.filter(|(n, _)| !choices.set.contains(n)) {
            for (sent, &term) in sent.iter_mut().zip(&column.terms) {
                let cost = choices.least[usize::from(term ^ column.hard_term)];
                *sent = cost.map_or(*sent, |cost| cost.min(*sent));
            }
        }
    }
}

/// Document 02, §1: "E(a) is therefore the least of S_n(a) over the columns, at each degree."
fn least_sent(sent_at_sum: &[Vec<u8>], a: usize) -> u8 {
    let costs = sent_at_sum.iter().map(|costs| costs[a]);
    costs.min().expect("a check has columns")
}

/// Sent costs as bytes: "One always exists, with a cost of at most 255, since one deviation is
/// enough."
fn bytes(costs: &[i32]) -> Vec<u8> {
    let byte = |&cost: &i32| u8::try_from(cost).expect("a least cost is at most 255");
    costs.iter().map(byte).collect()
}
