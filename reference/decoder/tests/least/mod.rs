//! The least cost at each weighted sum, over the choices for some columns of a check with at most k
//! deviations: three ways to find it.

use reference_decoder::sample::CheckSample;
use reference_decoder::{Decision, Rule};

/// One of the ways: a check, and the columns.
pub type Method = fn(&CheckSample, &[usize]) -> Vec<i32>;

/// A column's hard decision.
fn decided(costs: &[u8]) -> usize {
    usize::from(Decision::of(costs).symbol)
}

/// By trying every combination of symbols.
pub fn by_all_combinations(sample: &CheckSample, columns: &[usize]) -> Vec<i32> {
    let (rule, q) = (sample.rule(), sample.q());
    let mut least = vec![i32::MAX; q];
    for combination in 0..q.pow(columns.len() as u32) {
        let (mut rest, mut deviations, mut sum, mut cost) = (combination, 0, 0, 0);
        for &n in columns {
            let x = rest % q;
            rest /= q;
            let costs = &sample.costs[n * q..(n + 1) * q];
            deviations += usize::from(x != decided(costs));
            sum ^= usize::from(rule.field().product(sample.weights[n], x as u8));
            cost = rule.join().with(cost, i32::from(costs[x]));
        }
        if deviations <= rule.deviations() {
            least[sum] = least[sum].min(cost);
        }
    }
    least
}

/// Column after column: the least cost for each number of deviations and each weighted sum of the
/// columns so far.
pub fn column_after_column(sample: &CheckSample, columns: &[usize]) -> Vec<i32> {
    let (rule, q) = (sample.rule(), sample.q());
    let counts = rule.deviations() + 1;
    let mut least = vec![vec![None::<i32>; q]; counts];
    least[0][0] = Some(0);
    for &n in columns {
        let costs = &sample.costs[n * q..(n + 1) * q];
        let decision = decided(costs);
        let mut next = vec![vec![None::<i32>; q]; counts];
        for (x, &cost_of_x) in costs.iter().enumerate() {
            let deviates = usize::from(x != decision);
            let term = usize::from(rule.field().product(sample.weights[n], x as u8));
            for (before, known) in least[..counts - deviates].iter().enumerate() {
                let known = known.iter().enumerate();
                for (sum, cost) in known.filter_map(|(sum, cost)| cost.map(|cost| (sum, cost))) {
                    let cost = rule.join().with(cost, i32::from(cost_of_x));
                    let entry = &mut next[before + deviates][sum ^ term];
                    *entry = Some(entry.map_or(cost, |known| known.min(cost)));
                }
            }
        }
        least = next;
    }
    let of_sum = |sum: usize| least.iter().filter_map(|costs| costs[sum]).min();
    (0..q)
        .map(|sum| of_sum(sum).expect("one deviation is enough"))
        .collect()
}

/// By listing the choices with no deviation, one, and so on to k.
pub fn by_deviations(sample: &CheckSample, columns: &[usize]) -> Vec<i32> {
    let (field, q) = (sample.rule().field(), sample.q());
    // What each symbol adds to the weighted sum of the hard decisions, and its cost.
    let mut hard_sum = 0;
    let mut changes = Vec::new();
    for &n in columns {
        let costs = &sample.costs[n * q..(n + 1) * q];
        let decision = decided(costs);
        let term = |x: usize| usize::from(field.product(sample.weights[n], x as u8));
        hard_sum ^= term(decision);
        let deviations = (0..q).filter(|&x| x != decision);
        let change = |x: usize| (term(x) ^ term(decision), i32::from(costs[x]));
        changes.push(deviations.map(change).collect::<Vec<_>>());
    }
    let mut least = vec![i32::MAX; q];
    choose(sample.rule(), &changes, 0, (hard_sum, 0), &mut least);
    least
}

/// Takes the weighted sum and cost of a choice with so many deviations, and all choices that deviate in
/// later columns too, in at most k with these.
fn choose(
    rule: Rule,
    later: &[Vec<(usize, i32)>],
    deviations: usize,
    (sum, cost): (usize, i32),
    least: &mut [i32],
) {
    least[sum] = least[sum].min(cost);
    if deviations == rule.deviations() {
        return;
    }
    for (place, column) in later.iter().enumerate() {
        for &(change, own) in column {
            let choice = (sum ^ change, rule.join().with(cost, own));
            choose(rule, &later[place + 1..], deviations + 1, choice, least);
        }
    }
}
