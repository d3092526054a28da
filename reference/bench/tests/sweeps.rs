//! The textbook sweeps against the reference decoder.

use bench::sweeps::Engine;
use reference_decoder::sample::{self, Generator, Style};
use reference_decoder::{record, Join};

/// Records of every field with both k, in one edition.
fn compare<const GREATEST: bool>(join: Join) {
    let mut generator = Generator::new(1);
    for (p, k) in (2..=6).flat_map(|p| [(p, 2), (p, 3)]) {
        let mut engine = Engine::<GREATEST>::new(p, k);
        for round in 0..150 {
            let style = Style::ALL[round % 5];
            let degree = if round % 8 == 0 { 2..=2 } else { 2..=32 };
            let first = sample::first_byte_with(&mut generator, p..=p, k..=k, join..=join);
            let check = sample::check(&mut generator, first, degree, style);
            let mut expected = vec![0; record::length(check.rule(), check.degree())];
            let mut found = generator.bytes(expected.len());
            reference_decoder::check(first, &check.weights, &check.costs, &mut expected).unwrap();
            engine.check(&check.weights, &check.costs, &mut found);
            assert_eq!(found, expected);
        }
    }
}

#[test]
fn records_of_sums_are_the_reference_decoders() {
    compare::<false>(Join::Sum);
}

#[test]
fn records_of_the_greatest_are_the_reference_decoders() {
    compare::<true>(Join::Greatest);
}
