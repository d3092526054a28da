//! The Trellis Min-Max rule on cases worked out by hand, and under renamed symbols.

use reference_decoder::sample::{self, Generator, Style};
use simulate::field::Field;
use simulate::layered::CheckRule;
use simulate::min_max::MinMax;

/// h_n times x, column by column.
fn terms(field: &Field, weights: &[u8]) -> Vec<u8> {
    let column = |&weight: &u8| {
        let symbols = (0u8..).take(field.size());
        symbols.map(move |x| field.product(weight, x))
    };
    weights.iter().flat_map(column).collect()
}

fn sent(p: u8, weights: &[u8], costs: &[u8]) -> Vec<u8> {
    let field = Field::new(p);
    let mut sent = vec![0; costs.len()];
    MinMax.send(field.size(), &terms(&field, weights), costs, &mut sent);
    sent
}

/// Rows: 1 has 5 4 6, 2 has 7 8 2, 3 has 9 3 10. The best path to 1 takes 3 in column 1 and 2 in
/// column 2, so these get m1(1) = 4; the best paths to 2 and 3 have one deviation, so their column
/// gets m2.
#[test]
fn a_check_by_hand() {
    let costs = [0, 5, 7, 9, 0, 4, 8, 3, 0, 6, 2, 10];
    let expected = [0, 3, 2, 3, 0, 4, 2, 9, 0, 4, 7, 3];
    assert_eq!(sent(2, &[1, 1, 1], &costs), expected);
}

/// Paths to 3 would need both deviations in column 0: they are discarded.
#[test]
fn two_deviations_in_one_column_are_no_path() {
    let costs = [0, 1, 1, 50, 0, 60, 60, 40, 0, 60, 60, 60];
    let sent = sent(2, &[1, 1, 1], &costs);
    assert_eq!((sent[3], sent[7], sent[11]), (40, 50, 40));
}

/// Adding c_n to every symbol of column n adds to the shifts only: what is sent is renamed with it.
#[test]
fn renamed_symbols_are_sent_renamed() {
    let mut generator = Generator::new(1);
    for _ in 0..500 {
        let p = generator.byte(2..=6);
        let check = sample::check(&mut generator, p, 3..=8, Style::Uniform);
        let q = check.q();
        // Without ties the decisions move with the symbols.
        let mut costs = check.costs.clone();
        for column in costs.chunks_mut(q) {
            column.iter_mut().for_each(|cost| *cost = (*cost).max(1));
            column[generator.below(q)] = 0;
        }
        let added: Vec<usize> = (0..check.degree()).map(|_| generator.below(q)).collect();
        let renamed = |costs: &[u8], added: &[usize]| {
            let column = |(costs, &added): (&[u8], &usize)| {
                (0..q).map(|x| costs[x ^ added]).collect::<Vec<u8>>()
            };
            costs
                .chunks(q)
                .zip(added)
                .flat_map(column)
                .collect::<Vec<u8>>()
        };
        // The weighted sum of what is added to the other columns, by the weight of this one.
        let field = Field::new(p);
        let products = check.weights.iter().zip(&added);
        let products = products.map(|(&weight, &added)| field.product(weight, added as u8));
        let products: Vec<u8> = products.collect();
        let total = products.iter().fold(0, |sum, product| sum ^ product);
        let moved = products.iter().zip(&check.weights);
        let moved = moved.map(|(&own, &weight)| field.product(total ^ own, field.inverse(weight)));
        let moved: Vec<usize> = moved.map(usize::from).collect();

        let plain = sent(p, &check.weights, &costs);
        let after = sent(p, &check.weights, &renamed(&costs, &added));
        assert_eq!(after, renamed(&plain, &moved));
    }
}
