//! One allowance of iterations for eight channels.

use petsivola::Edition;
use simulate::array;
use simulate::decoder::Outcome;
use simulate::plan::LIMIT;
use simulate::progress::Progress;
use simulate::report;
use simulate::sharing::{self, Sharing, LIMITS};
use simulate::trial::{Rule, Scene, Setup, Stop};

const SETUP: Setup = Setup {
    rule: Rule::Proved(2, Edition::Sum),
    g: 8,
    costs_per_nat: 8.0,
};

/// A run over at most so many frames.
fn run(decibels: f64, frames: usize, seed: u64) -> Sharing {
    let scene = Scene::new(array::code(), LIMIT);
    let stop = Stop {
        errors: frames,
        frames,
    };
    sharing::run(
        &scene,
        SETUP,
        (decibels, stop),
        seed,
        &mut Progress::start(),
    )
}

/// In turn each channel has its L iterations before any has more: what is found alone is found shared too. With the
/// code line's own limit both are the same.
#[test]
fn sharing_loses_no_frame_that_is_found_alone() {
    let sharing = run(2.5, 64, 1);
    let mut gained = 0;
    for pair in &sharing.pairs {
        let (alone, shared) = (pair.alone.tally, pair.shared.tally);
        assert_eq!((alone.frames, shared.frames), (64, 64));
        assert_eq!((alone.symbols, shared.symbols), (64 * 248, 64 * 248));
        assert!(shared.frame_errors() <= alone.frame_errors());
        assert!(alone.iterations <= shared.iterations);
        assert!(shared.iterations <= 64 * usize::from(pair.limit));
        gained += alone.frame_errors() - shared.frame_errors();
    }
    assert!(gained > 10);
    let last = sharing.pairs.last().expect("several L");
    assert_eq!((last.limit, last.alone), (LIMIT, last.shared));
}

#[test]
fn the_frames_depend_on_the_seed() {
    let sharing = run(2.5, 8, 1);
    assert_eq!(sharing, run(2.5, 8, 1));
    assert_ne!(sharing, run(2.5, 8, 2));
}

/// A trial ends with a whole call, as soon as every way has its errors.
#[test]
fn a_trial_ends_with_a_whole_call() {
    let scene = Scene::new(array::code(), LIMIT);
    let stop = Stop {
        errors: 1,
        frames: 20,
    };
    let sharing = sharing::run(&scene, SETUP, (0.0, stop), 1, &mut Progress::start());
    assert!(sharing
        .pairs
        .iter()
        .all(|pair| pair.shared.tally.frames == 8));
    let sharing = run(6.0, 20, 1);
    assert!(sharing
        .pairs
        .iter()
        .all(|pair| pair.alone.tally.frames == 24));
}

/// Frames of one call that are lost together widen the interval.
#[test]
fn the_interval_is_that_of_the_spread_between_calls() {
    let scene = Scene::new(array::code(), LIMIT);
    let sent: Vec<_> = (0..8).map(|_| received(&scene)).collect();
    let decoded = |found| {
        let outcome = Outcome {
            found,
            iterations: 1,
        };
        (outcome, vec![0; 248])
    };
    let mut sharing = Sharing::new(2.5, SETUP);
    let [together, spread, ..] = &mut sharing.pairs;
    for call in 0..40 {
        together
            .shared
            .count(&sent, &[0; 8].map(|_| decoded(call % 8 != 0)));
        spread.shared.count(
            &sent,
            &[0, 1, 2, 3, 4, 5, 6, 7].map(|frame| decoded(frame != call % 8)),
        );
    }
    let rates = [together.shared, spread.shared].map(|way| way.tally.frame_error_rate());
    assert_eq!(rates, [0.125, 0.125]);
    let widths = [together.shared, spread.shared].map(|way| {
        let (low, high) = way.interval().expect("frames");
        high - low
    });
    assert!(widths[0] > 2.0 * widths[1]);
}

/// The all-zero word over a channel without a say.
fn received(scene: &Scene) -> simulate::channel::Received {
    simulate::channel::Received {
        word: vec![0; scene.code.columns],
        ratios: Vec::new(),
    }
}

#[test]
fn every_limit_has_a_point_both_ways() {
    let chart = report::chart_of_sharing(&[run(1.0, 8, 1)]);
    let names: Vec<&str> = chart
        .series
        .iter()
        .map(|series| series.name.as_str())
        .collect();
    assert_eq!(names, ["1.00 dB, alone", "1.00 dB, shared"]);
    for series in &chart.series {
        let places = series.points.iter().map(|point| point.x);
        assert!(places.eq(LIMITS.map(f64::from)));
    }
}
