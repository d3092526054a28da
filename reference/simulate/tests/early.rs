//! Stopping inside an iteration.

use petsivola::{Edition, Stopped};
use simulate::array;
use simulate::decoder::Outcome;
use simulate::early::{self, Early, Updates};
use simulate::plan::LIMIT;
use simulate::progress::Progress;
use simulate::report;
use simulate::trial::{Rule, Scene, Setup, Stop};

const SETUP: Setup = Setup {
    rule: Rule::Proved(2, Edition::Sum),
    g: 8,
    costs_per_nat: 8.0,
};

/// A run that ends with these errors in both calls, or after so many frames.
fn run_until(decibels: f64, errors: usize, frames: usize, seed: u64) -> Early {
    let scene = Scene::new(array::code(), LIMIT);
    let trial = (decibels, Stop { errors, frames });
    early::run(&scene, SETUP, trial, seed, &mut Progress::start())
}

/// A run over so many frames.
fn run(decibels: f64, frames: usize, seed: u64) -> Early {
    run_until(decibels, frames + 1, frames, seed)
}

/// What `decode` finds is found, no later and mostly sooner.
#[test]
fn no_frame_is_lost_by_fewer_updates() {
    let early = run(2.5, 60, 1);
    let (decode, all) = (early.decode, early.all);
    assert_eq!(
        (decode.frames, early.early.frames, all.frames),
        (60, 60, 60)
    );
    assert_eq!(all.of_decode(), 124 * decode.iterations);
    assert!(early.early.iterations <= decode.iterations);
    assert!(all.of_early() < all.of_decode());
    assert_eq!(early.decode_alone, 0);
    assert!(0 < decode.not_found && decode.not_found < 60);
    assert_eq!(early.found.frames, 60 - decode.not_found);
    assert_eq!(early.early_alone, decode.not_found - early.early.not_found);
}

#[test]
fn nothing_is_saved_where_nothing_is_found() {
    let early = run(-6.0, 3, 1);
    assert_eq!((early.decode.not_found, early.early.not_found), (3, 3));
    let all = [early.all.of_decode(), early.all.of_early()];
    assert_eq!(all, [3 * 15 * 124; 2]);
    assert_eq!(early.found, Updates::default());
    assert_eq!(early.found.saved(), None);
}

/// Four frames under a code with four checks: found by both, by both as different words, by `decode_early` alone and by
/// neither.
fn four_frames() -> Early {
    let mut early = Early::new(2.5, SETUP, 4);
    let (sent, other): (&[u8], &[u8]) = (&[1, 2, 3], &[1, 0, 0]);
    let after = |found, iterations| Outcome { found, iterations };
    early.count(sent, (after(true, 3), sent), (Stopped::Found(10), sent));
    early.count(sent, (after(true, 2), sent), (Stopped::Found(4), other));
    early.count(sent, (after(false, 15), other), (Stopped::Found(50), sent));
    let lost = Stopped::NotFound(60);
    early.count(sent, (after(false, 15), other), (lost, other));
    early
}

#[test]
fn frames_are_counted_by_who_finds_them() {
    let early = four_frames();
    assert_eq!((early.early_alone, early.decode_alone), (1, 0));
    assert_eq!((early.found.frames, early.differing), (2, 1));
    assert_eq!((early.decode.wrong, early.early.wrong), (0, 1));
    assert_eq!((early.decode.not_found, early.early.not_found), (2, 1));
    assert_eq!((early.all.of_decode(), early.all.of_early()), (140, 124));
    assert_eq!((early.found.of_decode(), early.found.of_early()), (20, 14));
    // An iteration in which it stops is one of them.
    assert_eq!(early.early.iterations, 3 + 1 + 13 + 15);
    let (saved, (low, high)) = early.found.saved().expect("updates");
    assert_eq!(saved, 0.3);
    assert!(low < saved && saved < high);
}

#[test]
#[should_panic(expected = "no more updates than `decode`")]
fn more_updates_end_the_run() {
    Updates::default().count(8, 9);
}

#[test]
fn the_conclusion_follows_the_counts() {
    let none = run(-6.0, 1, 1);
    let text = report::conclusion_of_early(&[none, four_frames()]);
    assert_eq!(
        text,
        "Of all updates `decode_early` saves 0.0 percent at -6.00 dB and 11.4 percent at 2.50 dB, on a frame that both find \
         3 to 3 updates, 0.75 to 0.75 of an iteration; of 5 frames it finds 1 that `decode` does not and loses none that \
         `decode` finds, both find 1 as different words, and found wrong are none by `decode` and 1 by `decode_early`.\n\n"
    );
    let text = report::conclusion_of_early(&[none]);
    assert!(!text.contains("iteration"));
}

#[test]
fn the_frames_depend_on_the_seed() {
    let early = run(2.5, 6, 1);
    assert_eq!(early, run(2.5, 6, 1));
    assert_ne!(early, run(2.5, 6, 2));
}

#[test]
fn a_trial_ends_when_both_calls_have_their_errors() {
    assert_eq!(run_until(-6.0, 2, 9, 1).all.frames, 2);
    assert_eq!(run_until(6.0, 1, 3, 1).all.frames, 3);
}

#[test]
fn all_frames_and_those_found_have_a_line() {
    let chart = report::chart_of_early(&[run(-6.0, 1, 1), run(3.0, 4, 1)]);
    let names = chart.series.iter().map(|series| series.name.as_str());
    assert!(names.eq(["frames that both find", "all frames"]));
    // At the lower Eb/N0 no frame is found.
    let points = chart.series.iter().map(|series| series.points.len());
    assert!(points.eq([1, 2]));
    let saved = chart.series[1].points[1];
    assert!(0.0 < saved.y && saved.y < 100.0);
}
