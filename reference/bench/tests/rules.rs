//! The same algorithm under every rule, k = 2 and 3 and both joins, against a list of all choices.

use bench::same::{expand_by, messages, Rule};
use reference_decoder::sample::{self, CheckSample, Generator, Style};
use reference_decoder::{product, Decision};

/// h times x, column by column.
fn products(check: &CheckSample) -> Vec<Vec<u8>> {
    let symbols = 0..check.q() as u8;
    let row = |&weight| {
        let p = check.rule().field().p();
        let products = symbols.clone().map(|x| product(p, weight, x));
        products.collect::<Result<_, _>>().expect("elements")
    };
    check.weights.iter().map(row).collect()
}

/// The least cost of the columns but n for each of their sums: every choice of symbols is tried.
fn least_costs(rule: Rule, check: &CheckSample, terms: &[Vec<u8>], n: usize) -> Vec<u8> {
    let mut choices = vec![(0, 0, 0)];
    for (column, costs) in check.costs.chunks_exact(rule.q).enumerate() {
        if column == n {
            continue;
        }
        let decision = usize::from(Decision::of(costs).symbol);
        let with = |&(sum, cost, deviations): &(u8, u32, usize)| {
            let symbol = |(x, &own): (usize, &u8)| {
                let own = u32::from(own);
                let cost = if rule.greatest {
                    cost.max(own)
                } else {
                    cost + own
                };
                let deviations = deviations + usize::from(x != decision);
                (sum ^ terms[column][x], cost, deviations)
            };
            costs.iter().enumerate().map(symbol).collect::<Vec<_>>()
        };
        choices = choices.iter().flat_map(with).collect();
        choices.retain(|&(_, _, deviations)| deviations <= rule.k);
    }
    let mut least = vec![u32::MAX; rule.q];
    for (sum, cost, _) in choices {
        least[usize::from(sum)] = least[usize::from(sum)].min(cost);
    }
    let bytes = least.into_iter().map(u8::try_from);
    bytes.collect::<Result<_, _>>().expect("costs of a byte")
}

/// The sent costs are the least, and the record's expansion has them again.
fn compare(rule: Rule, check: &CheckSample) {
    let terms = products(check);
    let mut expected = Vec::new();
    for (n, terms_of_n) in terms.iter().enumerate() {
        let least = least_costs(rule, check, &terms, n);
        expected.extend(terms_of_n.iter().map(|&term| least[usize::from(term)]));
    }
    let mut record = vec![0; rule.record_length(check.degree())];
    let mut sent = vec![0; expected.len()];
    let (weights, costs) = (&check.weights, &check.costs);
    let written = messages(rule, weights, costs, &mut record, Some(&mut sent));
    assert_eq!(written, Ok(record.len()));
    assert_eq!(sent, expected, "{rule:?}, {check:?}");
    sent.fill(0);
    let written = expand_by(rule, weights, &record, &mut sent);
    assert_eq!(written, Ok(sent.len()));
    assert_eq!(sent, expected, "{rule:?}, {check:?}");
}

/// p, the greatest degree and the checks of each style.
const SIZES: [(u8, usize, usize); 5] = [(2, 6, 30), (3, 5, 10), (4, 4, 5), (5, 4, 2), (6, 4, 1)];

#[test]
fn sent_costs_are_the_least() {
    let mut generator = Generator::new(1);
    for (p, most, rounds) in SIZES {
        for degree in 2..=most {
            for style in Style::ALL.repeat(rounds) {
                let check = sample::check(&mut generator, p, degree..=degree, style);
                for (k, greatest) in [(2, false), (2, true), (3, false), (3, true)] {
                    compare(Rule::new(p, k, greatest).unwrap(), &check);
                }
            }
        }
    }
}
