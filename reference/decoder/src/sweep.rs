//! The trellis sweep engine for one check. Document 02, §7: "For one check it keeps, for each partial sum and
//! each count of deviations up to k, the least cost over the columns before n, and the same over the columns
//! after n, and joins the two sweeps for column n."
//!
//! A partial sum is the sum of h_m times x_m over some of the columns, and a count is met exactly: a choice
//! with one deviation does not stand where two are counted. A kept cost is none "where no choice exists".

use crate::check::{accept, Messages};
use crate::decision::Decision;
use crate::field::Field;
use crate::record;
use crate::refusal::Refusal;
use crate::rule::Rule;

/// Works out one check's messages by two sweeps and writes their record. "It writes the same record for
/// each accepted check, and refuses the same ones with the same numbers" as [`check`](crate::check()).
/// Answers how many bytes it wrote.
pub fn sweep(first: u8, weights: &[u8], costs: &[u8], record: &mut [u8]) -> Result<usize, Refusal> {
    let rule = accept(first, weights, costs, record.len())?;
    let sent = Sweeps::new(rule, weights, costs).sent();
    let messages = Messages::of_sent(rule.field(), weights, costs, sent);
    let packed = record::pack(rule, &messages);
    record[..packed.len()].copy_from_slice(&packed);
    Ok(packed.len())
}

/// The two sweeps over an accepted check.
pub struct Sweeps {
    rule: Rule,
    /// The branches of each column, by symbol.
    columns: Vec<Vec<Branch>>,
    /// What is kept over the columns before n, as `before[n]`.
    pub before: Vec<Kept>,
    /// What is kept over the columns after n, as `after[n]`.
    pub after: Vec<Kept>,
}

impl Sweeps {
    /// The sweeps over the columns from the first on, and from the last on.
    pub fn new(rule: Rule, weights: &[u8], costs: &[u8]) -> Sweeps {
        let columns = weights.iter().zip(costs.chunks(rule.field().size()));
        let columns: Vec<Vec<Branch>> = columns
            .map(|(&weight, costs)| Branch::all(rule.field(), weight, costs))
            .collect();
        // No column stands before or after all of them, so neither sweep takes its last one.
        let before = swept(rule, columns.iter().take(weights.len() - 1));
        let mut after = swept(rule, columns.iter().skip(1).rev());
        after.reverse();
        Sweeps {
            rule,
            columns,
            before,
            after,
        }
    }

    /// The cost sent to column n at symbol x, as `[n][x]`.
    fn sent(&self) -> Vec<Vec<u8>> {
        let columns = self.columns.iter().enumerate();
        let sent = |(n, column): (usize, &Vec<Branch>)| {
            let costs = column.iter().map(|branch| self.joined(n, branch.term));
            costs.map(byte).collect()
        };
        columns.map(sent).collect()
    }

    /// "joins the two sweeps for column n": the least cost over choices for the other columns with at most
    /// k deviations and this weighted sum. A part before n and a part after n make such a choice when their
    /// counts add up to at most k, and their partial sums to the sum.
    fn joined(&self, n: usize, sum: u8) -> Option<i32> {
        let (k, join) = (self.rule.deviations(), self.rule.join());
        let counts = (0..=k).flat_map(|count| (0..=k - count).map(move |other| (count, other)));
        let choices = counts.flat_map(|(count, other)| {
            self.rule.field().elements().filter_map(move |part| {
                let before = self.before[n].least(count, part)?;
                let after = self.after[n].least(other, sum ^ part)?;
                Some(join.with(before, after))
            })
        });
        choices.min()
    }
}

/// A sent cost: "One always exists, with a cost of at most 255, since one deviation is enough."
fn byte(cost: Option<i32>) -> u8 {
    let cost = cost.expect("one deviation is enough");
    u8::try_from(cost).expect("a least cost is at most 255")
}

/// What is kept over the first of some columns, none of them, one and so on to all.
fn swept<'a>(rule: Rule, columns: impl Iterator<Item = &'a Vec<Branch>>) -> Vec<Kept> {
    let mut all = vec![Kept::over_no_column(rule)];
    for column in columns {
        let kept = all[all.len() - 1].with_column(rule, column);
        all.push(kept);
    }
    all
}

/// A branch of the trellis: one symbol of a column.
struct Branch {
    /// 1 where the symbol is not the column's hard decision, else 0.
    deviations: usize,
    /// h_n times x.
    term: u8,
    /// Q_n(x).
    cost: i32,
}

impl Branch {
    /// The branches of a column, by symbol.
    fn all(field: Field, weight: u8, costs: &[u8]) -> Vec<Branch> {
        let decision = Decision::of(costs).symbol;
        let symbols = field.elements().zip(costs);
        symbols
            .map(|(x, &cost)| Branch {
                deviations: usize::from(x != decision),
                term: field.product(weight, x),
                cost: i32::from(cost),
            })
            .collect()
    }
}

/// What is kept over some columns: the least cost over their choices, for each count of deviations, 0 to k,
/// and each partial sum.
#[derive(Clone, Debug, PartialEq, Eq)]
pub struct Kept(Vec<Vec<Option<i32>>>);

impl Kept {
    /// The least cost over choices with exactly so many deviations and this partial sum, none where no
    /// choice exists.
    pub fn least(&self, deviations: usize, sum: u8) -> Option<i32> {
        self.0[deviations][usize::from(sum)]
    }

    /// What is kept where each count and each partial sum has this cost.
    fn by(rule: Rule, cost: impl Fn(usize, u8) -> Option<i32>) -> Kept {
        let of_count = |count| {
            rule.field()
                .elements()
                .map(|sum| cost(count, sum))
                .collect()
        };
        Kept((0..=rule.deviations()).map(of_count).collect())
    }

    /// The only choice for no column has no deviation and the sum 0, and costs 0.
    fn over_no_column(rule: Rule) -> Kept {
        Kept::by(rule, |count, sum| ((count, sum) == (0, 0)).then_some(0))
    }

    /// These columns and one more. A choice for all of them is one for these, and a branch.
    fn with_column(&self, rule: Rule, column: &[Branch]) -> Kept {
        Kept::by(rule, |count, sum| {
            let costs = column.iter().filter_map(|branch| {
                let others = count.checked_sub(branch.deviations)?;
                let cost = self.least(others, sum ^ branch.term)?;
                Some(rule.join().with(cost, branch.cost))
            });
            costs.min()
        })
    }
}
