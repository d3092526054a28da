//! `decode_early` of the static library against the reference decoder, from a fixed seed, and against `decode` of the
//! same library. The comparison prints one line with its counts and fails when a class of answers was never met.

mod entry_point;

use compare::EARLY;
use petsivola::{decode, decode_early, product, Outcome, Stopped};
use reference_decoder::sample::{self, Buffers, Generator, Size, Style};
use reference_decoder::{code_line, Code};

#[test]
fn decodings_that_may_stop_inside_an_iteration() {
    entry_point::compare(&EARLY);
}

/// Whether the symbols satisfy every check, by the library's products.
fn satisfied(code: &Code, symbols: &[u8]) -> bool {
    code.checks.iter().all(|check| {
        let terms = check.columns.iter().zip(&check.weights);
        let terms = terms.map(|(&column, &weight)| {
            product(code.field().p(), weight, symbols[column]).expect("two elements")
        });
        terms.fold(0, |sum, term| sum ^ term) == 0
    })
}

/// A code of any size, and a frame near a word of it.
fn reception(generator: &mut Generator, round: usize) -> (Code, Vec<u8>) {
    let size = match round % 100 {
        0 => Size::MOST_CHECKS,
        1 => Size::MOST_DEGREE,
        2 => Size::FULL,
        3..30 => Size::MEDIUM,
        _ => Size::SMALL,
    };
    let sample = sample::code(generator, &size);
    let code = code_line(&sample.line).expect("an accepted code line");
    let style = generator.one_of(&Style::ALL);
    let wrong = generator.between(0..=code.n / 2);
    let frame = sample::noisy_frame(generator, &code, &sample.word, wrong, style);
    (code, frame)
}

/// What `decode` answers, and the buffers as it leaves them.
fn ordinary(line: &[u8], frame: &[u8], mut buffers: Buffers) -> (Outcome, Buffers) {
    let (symbols, costs) = (&mut buffers.symbols, &mut buffers.costs);
    let (store, margins) = (&mut buffers.store, &mut buffers.margins);
    let outcome = decode(line, frame, symbols, costs, store, margins);
    (outcome.expect("an accepted frame"), buffers)
}

/// The same of `decode_early`.
fn early(line: &[u8], frame: &[u8], mut buffers: Buffers) -> (Stopped, Buffers) {
    let (symbols, costs) = (&mut buffers.symbols, &mut buffers.costs);
    let (store, margins) = (&mut buffers.store, &mut buffers.margins);
    let stopped = decode_early(line, frame, symbols, costs, store, margins);
    (stopped.expect("an accepted frame"), buffers)
}

/// "It never makes more updates than M times the t of the ordinary call on the same input." With as many, both end at
/// one moment; with fewer it is found there, and checks not yet updated keep the old bytes of their place.
#[test]
fn never_more_updates_than_decode() {
    let mut generator = Generator::new(9);
    let [mut fewer, mut alone] = [0; 2];
    for round in 0..20_000 {
        let (code, frame) = reception(&mut generator, round);
        let (line, before) = (
            code.line(),
            Buffers::arbitrary(&mut generator, code.lengths()),
        );
        let (outcome, decoded) = ordinary(&line, &frame, before.clone());
        let (stopped, buffers) = early(&line, &frame, before.clone());
        let updates = usize::from(stopped.updates());
        let most = code.m * usize::from(outcome.iterations());
        assert!(updates <= most, "{updates} updates, not {most}");
        assert_eq!(satisfied(&code, &buffers.symbols), stopped.status() == 0);
        if updates == most {
            assert_eq!((stopped.status(), buffers), (outcome.status(), decoded));
            continue;
        }
        assert_eq!(stopped.status(), 0);
        let places = code.places().into_iter();
        for place in places.skip(updates) {
            assert_eq!(buffers.store[place.clone()], before.store[place]);
        }
        fewer += 1;
        alone += usize::from(outcome.status() == 1);
    }
    assert!(fewer > 2_000 && alone > 0, "{fewer} fewer, {alone} alone");
}
