//! Document 01, "One check", with document 02, §1, §3 and §5, against other ways to find the least costs.

mod least;

use least::{by_all_combinations, by_deviations, column_after_column, Method};
use reference_decoder::check;
use reference_decoder::check::Messages;
use reference_decoder::sample::{self, bytes, CheckSample, Generator, Style};

fn messages(sample: &CheckSample) -> Messages {
    Messages::new(sample.rule(), &sample.weights, &sample.costs)
}

/// Document 01's words for E(a): "the least cost over choices for all columns with at most two
/// deviations whose weighted sum is a plus the sum of all h_k times z_k", with at most k of them.
fn extra_of_all_columns(sample: &CheckSample, method: Method) -> Vec<i32> {
    let field = sample.rule().field();
    let every_column: Vec<usize> = (0..sample.degree()).collect();
    let decisions = messages(sample).decisions;
    let hard_sum = sample.weights.iter().zip(decisions);
    let hard_sum = hard_sum.fold(0, |sum, (&weight, decision)| {
        sum ^ usize::from(field.product(weight, decision.symbol))
    });
    let least = method(sample, &every_column);
    (0..sample.q()).map(|a| least[a ^ hard_sum]).collect()
}

/// Compares sent costs, S and E of one check with those that another method finds.
fn compare(sample: &CheckSample, method: Method) {
    let field = sample.rule().field();
    let messages = messages(sample);
    let every_column: Vec<usize> = (0..sample.degree()).collect();
    let mut extra = vec![i32::MAX; sample.q()];
    for n in 0..sample.degree() {
        let mut others = every_column.clone();
        others.remove(n);
        let least = method(sample, &others);
        for x in 0..sample.q() {
            let sum = field.product(sample.weights[n], x as u8);
            let sent = messages.sent[n][x];
            assert_eq!(
                i32::from(sent),
                least[usize::from(sum)],
                "{sample:?} {n} {x}"
            );
            let a = usize::from(sum ^ messages.shifts[n]);
            assert_eq!(messages.sent_at_sum[n][a], sent);
            extra[a] = extra[a].min(i32::from(sent));
        }
    }
    assert!(messages.extra.iter().copied().map(i32::from).eq(extra));
    if sample.degree() > sample.rule().deviations() {
        compare_extra(sample, method);
    }
}

/// Compares E with document 01's words for it. "Records of degree 3 and up keep their bytes", since
/// nothing else in them depends on how E is worded.
fn compare_extra(sample: &CheckSample, method: Method) {
    let extra: Vec<i32> = messages(sample).extra.into_iter().map(i32::from).collect();
    let of_all_columns = extra_of_all_columns(sample, method);
    assert_eq!(extra[1..], of_all_columns[1..], "{sample:?}");
}

#[test]
fn small_checks_agree_with_all_combinations() {
    let mut generator = Generator::new(1);
    let sizes = [
        (2, 2, 100),
        (3, 2, 50),
        (4, 2, 20),
        (5, 2, 10),
        (6, 2, 4),
        (2, 3, 60),
        (2, 4, 60),
        (2, 5, 20),
        (2, 6, 4),
        (3, 3, 20),
        (3, 4, 10),
        (3, 5, 2),
        (4, 3, 5),
        (4, 4, 2),
    ];
    for style in Style::ALL {
        for (p, degree, count) in sizes {
            for first in [p, 0x10 + p, 0x20 + p, 0x30 + p].repeat(count) {
                let sample = sample::check(&mut generator, first, degree..=degree, style);
                compare(&sample, by_all_combinations);
            }
        }
    }
}

#[test]
fn checks_of_every_size_agree_with_column_after_column() {
    let mut generator = Generator::new(4);
    for style in Style::ALL {
        for (p, degree, count) in [
            (2..=6, 2..=3, 40),
            (2..=6, 4..=12, 100),
            (6..=6, 32..=32, 2),
        ] {
            for round in 0..count {
                let k = 2 + round % 2;
                let first = sample::first_byte(&mut generator, p.clone(), k..=k);
                let sample = sample::check(&mut generator, first, degree.clone(), style);
                compare(&sample, column_after_column);
            }
        }
    }
}

/// E is the least over choices for all columns where there are more than k of them: some column then
/// keeps its decision, and is sent that cost.
#[test]
fn above_degree_k_the_extra_column_is_document_01s() {
    let mut generator = Generator::new(6);
    for style in Style::ALL {
        for (p, k, degree, count) in [
            (2..=4, 2, 3..=4, 200),
            (2..=6, 2, 3..=12, 100),
            (6..=6, 2, 32..=32, 2),
            (2..=4, 3, 4..=5, 200),
            (2..=5, 3, 4..=12, 100),
        ] {
            for _ in 0..count {
                let first = sample::first_byte(&mut generator, p.clone(), k..=k);
                let sample = sample::check(&mut generator, first, degree.clone(), style);
                compare_extra(&sample, by_deviations);
            }
        }
    }
}

#[test]
fn hard_decisions_and_shifts_are_those_of_the_definition() {
    let mut generator = Generator::new(2);
    for style in Style::ALL {
        for _ in 0..20 {
            let first = sample::first_byte(&mut generator, 2..=6, 2..=3);
            let sample = sample::check(&mut generator, first, 2..=12, style);
            let field = sample.rule().field();
            let messages = messages(&sample);
            for (n, costs) in sample.costs.chunks(sample.q()).enumerate() {
                let decision = messages.decisions[n];
                let z = usize::from(decision.symbol);
                assert_eq!(costs[z], 0);
                assert!(costs[..z].iter().all(|&cost| cost > 0));
                let others = [&costs[..z], &costs[z + 1..]].concat();
                assert!(others.iter().all(|&cost| decision.margin <= cost.into()));
                assert!(others.iter().any(|&cost| decision.margin == cost.into()));
                let mut shift = 0;
                for k in (0..sample.degree()).filter(|&k| k != n) {
                    shift ^= field.product(sample.weights[k], messages.decisions[k].symbol);
                }
                assert_eq!(messages.shifts[n], shift);
            }
        }
    }
}

#[test]
fn the_extra_column_is_the_least_and_few_columns_exceed_it() {
    let mut generator = Generator::new(3);
    // How many a of all checks have so many columns above E.
    let mut exceeding = [0; 4];
    for style in Style::ALL {
        for count in 0..160 {
            let degree = match count {
                0..2 => 32..=32,
                2..80 => 2..=4,
                _ => 2..=16,
            };
            let k = 2 + count % 2;
            let first = sample::first_byte(&mut generator, 2..=6, k..=k);
            let sample = sample::check(&mut generator, first, degree, style);
            let messages = messages(&sample);
            // Some column keeps its decision and is sent E.
            let most = k.min(sample.degree() - 1);
            for a in 1..sample.q() {
                let costs = messages.sent_at_sum.iter().map(|costs| costs[a]);
                assert_eq!(costs.clone().min(), Some(messages.extra[a]));
                let above = costs.filter(|&cost| cost > messages.extra[a]).count();
                assert!(above <= most);
                exceeding[above] += 1;
            }
            assert!(messages.sent_at_sum.iter().all(|costs| costs[0] == 0));
        }
    }
    assert!(exceeding.iter().all(|&count| count > 100), "{exceeding:?}");
}

/// Document 02, §1: "In such a check a cheapest choice may deviate in both columns, so E would be a
/// cost nobody was sent".
#[test]
fn the_cheapest_choice_of_two_columns_may_be_sent_to_nobody() {
    // At a = 1 symbol 2 of column 0 and symbol 3 of column 1 together cost 2, and either column is
    // sent the other's 9.
    let sample = CheckSample {
        first: 2,
        weights: vec![1; 2],
        costs: bytes("00090109 00090901"),
    };
    let messages = messages(&sample);
    assert_eq!(extra_of_all_columns(&sample, by_all_combinations)[1], 2);
    assert_eq!([0, 1].map(|n| messages.sent_at_sum[n][1]), [9, 9]);
    assert_eq!(messages.extra[1..], [9, 1, 1]);
    let mut record = [0; 17];
    let written = check(sample.first, &sample.weights, &sample.costs, &mut record);
    assert_eq!(written, Ok(17));
    let expected = bytes("0000 09FF00FF00 010009FF00 010109FF00");
    assert_eq!(record[..], expected);
}

/// Of two columns each is sent the other's costs, by the weights and from its own shift on.
#[test]
fn of_two_columns_each_is_sent_the_others_costs() {
    let mut generator = Generator::new(5);
    let (mut above, mut cheaper) = (0, 0);
    for style in Style::ALL.repeat(60) {
        let first = sample::first_byte(&mut generator, 2..=6, 2..=3);
        let sample = sample::check(&mut generator, first, 2..=2, style);
        let (field, q) = (sample.rule().field(), sample.q());
        let messages = messages(&sample);
        for (n, other) in [(0, 1), (1, 0)] {
            for x in 0..q {
                let term = field.product(sample.weights[n], x as u8);
                let partner = |&y: &usize| field.product(sample.weights[other], y as u8) == term;
                let y = (0..q).find(partner).expect("a weight that is not 0");
                assert_eq!(messages.sent[n][x], sample.costs[other * q + y]);
            }
        }
        let of_all_columns = extra_of_all_columns(&sample, by_all_combinations);
        for (a, of_all_columns) in of_all_columns.into_iter().enumerate().skip(1) {
            let extra = i32::from(messages.extra[a]);
            assert!(of_all_columns <= extra);
            cheaper += usize::from(of_all_columns < extra);
            above += usize::from(messages.sent_at_sum[0][a] != messages.sent_at_sum[1][a]);
        }
    }
    assert!(above > 1_000 && cheaper > 1_000, "{above}, {cheaper}");
}
