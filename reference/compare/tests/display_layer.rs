//! `display` of the static library against the reference decoder, from a fixed seed, and both views of a record by the
//! library alone. The comparison prints one line with its counts and fails when a class of answers was never met.

mod entry_point;

use compare::DISPLAY;
use petsivola::{check, display, expand, lengths};
use reference_decoder::check::Messages;
use reference_decoder::sample::{self, Generator, Style};

#[test]
fn displays() {
    entry_point::compare(&DISPLAY);
}

/// What is shown of an accepted record, in a buffer of arbitrary content.
fn shown(generator: &mut Generator, first: u8, weights: &[u8], record: &[u8]) -> Vec<u8> {
    let mut out = generator.bytes(weights.len());
    assert_eq!(display(first, weights, record, &mut out), Ok(out.len()));
    out
}

/// "For two accepted records of one field, weights and degree, the display bytes are equal exactly when the shifts are,
/// however their costs and pairs differ": with either k and in either edition.
#[test]
fn equal_exactly_when_the_shifts_are() {
    let mut generator = Generator::new(7);
    let mut equal = 0;
    for _ in 0..20_000 {
        let p = generator.byte(2..=6);
        let degree = generator.between(2..=32);
        let weights = sample::weights(&mut generator, p, degree);
        let firsts = [0, 1].map(|_| sample::first_byte(&mut generator, p..=p, 2..=3));
        let [one, mut other] = firsts.map(|first| sample::record(&mut generator, first, degree));
        // All shifts of the one, or all but one.
        let copied = degree - generator.below(2);
        other[..copied].copy_from_slice(&one[..copied]);
        let shown = [(firsts[0], &one), (firsts[1], &other)]
            .map(|(first, record)| shown(&mut generator, first, &weights, record));
        let same_shifts = one[..degree] == other[..degree];
        assert_eq!(shown[0] == shown[1], same_shifts);
        equal += usize::from(same_shifts);
    }
    assert!((10_000..15_000).contains(&equal), "{equal}");
}

/// "the bench reader, which is expansion, still recovers every sent cost of a record that a check wrote"; where the
/// display shows a symbol, the sent cost is 0.
#[test]
fn both_views_of_a_record_that_a_check_wrote() {
    let mut generator = Generator::new(8);
    for _ in 0..2_000 {
        let first = sample::first_byte(&mut generator, 2..=6, 2..=3);
        let style = generator.one_of(&Style::ALL);
        let sample = sample::check(&mut generator, first, 2..=8, style);
        let weights = &sample.weights;
        let length = lengths::record(first, weights.len()).expect("an accepted first byte");
        let mut record = generator.bytes(length);
        assert_eq!(
            check(first, weights, &sample.costs, &mut record),
            Ok(length)
        );
        let mut costs = generator.bytes(sample.costs.len());
        assert_eq!(expand(first, weights, &record, &mut costs), Ok(costs.len()));
        let messages = Messages::new(sample.rule(), weights, &sample.costs);
        assert_eq!(costs, messages.sent.concat());
        let symbols = shown(&mut generator, first, weights, &record);
        for (column, symbol) in costs.chunks_exact(sample.q()).zip(symbols) {
            assert_eq!(column[usize::from(symbol)], 0);
        }
    }
}
