//! Decided symbols by their margins.

use petsivola::{Edition, MOST_MARGIN};
use simulate::array;
use simulate::margins::{self, Worth, CLASSES};
use simulate::plan::LIMIT;
use simulate::progress::Progress;
use simulate::report;
use simulate::share::{wilson, Share};
use simulate::trial::{Rule, Scene, Setup, Stop};

const SETUP: Setup = Setup {
    rule: Rule::Proved(2, Edition::Sum),
    g: 8,
    costs_per_nat: 8.0,
};

#[test]
fn every_margin_has_one_class() {
    let margins = CLASSES.into_iter().flatten();
    assert!(margins.eq(0..=MOST_MARGIN));
}

/// Symbols and errors of each class.
fn counts(shares: &[Share]) -> Vec<(usize, usize)> {
    let counts = shares.iter().map(|share| (share.symbols, share.errors));
    counts.collect()
}

#[test]
fn symbols_are_counted_in_the_class_of_their_margin() {
    let mut worth = Worth::new(2.5, SETUP);
    worth.count(false, &[1, 2, 3, 4], &[1, 0, 0, 4], &[0, 0, 2, 3]);
    worth.count(true, &[1, 2, 3, 4], &[1, 2, 3, 4], &[2, 5, 510, 161]);
    let mut lost = vec![(2, 1), (1, 1), (1, 0)];
    lost.resize(CLASSES.len(), (0, 0));
    assert_eq!(counts(&worth.not_found), lost);
    let mut all = vec![(2, 1), (2, 1), (2, 0)];
    all.resize(CLASSES.len() - 1, (0, 0));
    all.push((2, 0));
    assert_eq!(counts(&worth.all), all);
}

/// The same symbols in frames that spread as independent symbols do, and in frames all or nothing of which is
/// wrong: of those a frame is worth one symbol.
#[test]
fn the_interval_is_that_of_the_spread_between_frames() {
    assert_eq!(Share::default().rate(), None);
    assert_eq!(Share::default().interval(), None);
    let (mut alone, mut together) = (Share::default(), Share::default());
    for frame in 0..100 {
        alone.count(1, usize::from(frame < 20));
        together.count(10, if frame < 20 { 10 } else { 0 });
    }
    assert_eq!((alone.rate(), together.rate()), (Some(0.2), Some(0.2)));
    // Wilson's interval for 20 of 100.
    let (low, high) = alone.interval().unwrap();
    assert!((low - 0.1334).abs() < 5e-5 && (high - 0.2888).abs() < 5e-5);
    let (one, other) = together.interval().unwrap();
    assert!((one - low).abs() < 1e-9 && (other - high).abs() < 1e-9);
    let mut none = Share::default();
    none.count(50, 0);
    assert_eq!(none.interval(), Some(wilson(0.0, 50.0)));
}

/// Frames not found with these errors of 100 symbols in the first classes.
fn worth(errors: &[usize]) -> Worth {
    let mut worth = Worth::new(2.5, SETUP);
    for (share, &errors) in worth.not_found.iter_mut().zip(errors) {
        share.count(100, errors);
    }
    worth
}

#[test]
fn the_bounds_of_the_shades() {
    let worths = [
        worth(&[60, 55, 20, 9, 3, 0, 1]),
        worth(&[70, 49, 15, 12, 0]),
    ];
    assert_eq!(report::wrong_up_to(&worths, 0.5), 1);
    assert_eq!(report::wrong_up_to(&worths, 0.1), 3);
    assert_eq!(report::wrong_somewhere(&worths, 0.1), 4);
    assert_eq!(report::wrong_somewhere(&worths, 0.01), 7);
    let nothing = [worth(&[])];
    assert_eq!(report::wrong_up_to(&nothing, 0.1), 0);
    assert_eq!(report::wrong_somewhere(&nothing, 0.1), 0);
}

/// All symbols have a class, the frames depend on the seed, and large margins are right.
#[test]
fn a_run_counts_every_symbol() {
    let scene = Scene::new(array::code(), LIMIT);
    let stop = Stop {
        errors: 20,
        frames: 60,
    };
    let run = |seed| margins::run(&scene, SETUP, (2.25, stop), seed, &mut Progress::start());
    let worth = run(1);
    assert_eq!(run(1), worth);
    assert_ne!(run(2), worth);
    assert!(worth.tally.frames <= 60 && worth.tally.not_found > 5);
    let sum = |shares: &[Share]| {
        let counts = counts(shares).into_iter();
        counts.fold((0, 0), |sum, count| (sum.0 + count.0, sum.1 + count.1))
    };
    let tally = worth.tally;
    assert_eq!(sum(&worth.all), (tally.symbols, tally.symbol_errors));
    assert_eq!(sum(&worth.not_found).0, 248 * tally.not_found);
    assert!(worth.not_found[0].rate() > Some(0.4));
    let large = CLASSES.len() - 2;
    assert_eq!(sum(&worth.all[large..]).1, 0);
}
