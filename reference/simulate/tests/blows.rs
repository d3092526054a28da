//! Two blows for one word.

use petsivola::Edition;
use simulate::array;
use simulate::blows::{self, Blows};
use simulate::plan::LIMIT;
use simulate::progress::Progress;
use simulate::report;
use simulate::trial::{Rule, Scene, Setup, Stop};

const SETUP: Setup = Setup {
    rule: Rule::Proved(2, Edition::Sum),
    g: 8,
    costs_per_nat: 8.0,
};

/// A run that ends with these errors in every way, or after so many frames.
fn run_until(decibels: f64, errors: usize, frames: usize, seed: u64) -> Blows {
    let scene = Scene::new(array::code(), LIMIT);
    let trial = (decibels, Stop { errors, frames });
    blows::run(&scene, SETUP, trial, seed, &mut Progress::start())
}

/// A run over so many frames.
fn run(decibels: f64, frames: usize, seed: u64) -> Blows {
    run_until(decibels, frames + 1, frames, seed)
}

/// What the first blow finds, either finds; and its iterations come on top where it finds nothing.
#[test]
fn either_blow_is_no_worse_than_the_first() {
    let blows = run(2.25, 60, 1);
    let (one, either) = (blows.one, blows.either);
    assert_eq!(blows.tallies().map(|tally| tally.frames), [60; 3]);
    assert!(0 < either.frame_errors() && either.frame_errors() < one.frame_errors());
    assert_eq!(either.wrong, one.wrong);
    assert!(one.iterations < either.iterations && either.iterations <= 2 * 60 * 15);
}

/// Two blows bring 3 dB. At 0 dB next to no single frame is found, and the combined ones are as at 3 dB.
#[test]
fn combined_blows_are_found_where_single_ones_are_lost() {
    let blows = run(0.0, 40, 1);
    assert_eq!(blows.one.frame_errors(), 40);
    assert_eq!(blows.either.frame_errors(), 40);
    assert!(blows.combined.frame_errors() <= 2);
    assert!(blows.combined.iterations < blows.one.iterations / 2);
}

#[test]
fn the_frames_depend_on_the_seed() {
    let blows = run(2.25, 6, 1);
    assert_eq!(blows, run(2.25, 6, 1));
    assert_ne!(blows, run(2.25, 6, 2));
}

#[test]
fn a_trial_ends_when_every_way_has_its_errors() {
    let blows = run_until(-6.0, 2, 9, 1);
    assert_eq!(blows.tallies().map(|tally| tally.frames), [2; 3]);
    let blows = run_until(6.0, 1, 3, 1);
    assert_eq!(blows.tallies().map(|tally| tally.frames), [3; 3]);
}

#[test]
fn every_way_has_a_line() {
    let chart = report::chart_of_blows(&[run(-6.0, 1, 1), run(6.0, 1, 1)]);
    let names = chart.series.iter().map(|series| series.name.as_str());
    assert!(names.eq(["combined", "better of two", "one blow"]));
    // Without a frame error there is no point.
    let points = chart.series.iter().map(|series| series.points.len());
    assert!(points.eq([1, 1, 1]));
}
