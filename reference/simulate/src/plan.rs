//! What a run simulates: a sweep over g, a curve over Eb/N0 with each rule at its best g, a sweep over the cost
//! scale, a sweep over g by column weight, long checks with two and with three deviations, what a margin is worth,
//! one allowance of iterations for eight channels, two blows for one word, and stopping inside an iteration.

use std::ops::RangeInclusive;

use petsivola::Edition;
use reference_decoder::sample::Generator;

use crate::blows::{self, Blows};
use crate::early::{self, Early};
use crate::long_checks::{self, LongChecks, Trials};
use crate::margins::{self, Worth};
use crate::progress::Progress;
use crate::sharing::{self, Sharing};
use crate::sweep::Sweep;
use crate::trial::{Count, Rule, Scene, Setup, Stop};
use crate::weights;

/// I of every decoding; document 003 simulates with 15 iterations.
pub const LIMIT: u8 = 15;
/// The cost scale where it is not swept.
pub const COSTS_PER_NAT: f64 = 8.0;
/// The rules of the curve, of the sweep over g and of the sweep over the cost scale.
pub const RULES: [Rule; 3] = [
    Rule::Proved(2, Edition::Sum),
    Rule::Proved(2, Edition::Greatest),
    Rule::TrellisMinMax,
];
/// The swept g of each rule. Where g is not swept, each has its best one in the sweep.
const GS: [RangeInclusive<u8>; 3] = [5..=11, 7..=13, 4..=10];
/// The swept scales.
const SCALES: [f64; 5] = [1.0, 2.0, 4.0, 8.0, 16.0];

/// The trials of a run.
#[derive(Clone, Debug, PartialEq)]
pub struct Plan {
    /// Every rule over Eb/N0.
    pub curve: Vec<(f64, Stop)>,
    /// Every rule with every g.
    pub scaling: Vec<(f64, Stop)>,
    /// Every rule with every cost scale.
    pub costs: Vec<(f64, Stop)>,
    /// The proved rule with every g, once for each code of [`weights::codes`].
    pub weights: Vec<(f64, Stop)>,
    /// Both k, once for each code of [`long_checks::codes`].
    pub long_checks: [Trials; 2],
    /// The proved rule with the sum, its symbols by their margins.
    pub margins: Vec<(f64, Stop)>,
    /// The same rule on eight channels with one allowance.
    pub sharing: Vec<(f64, Stop)>,
    /// The same rule on two blows for each word.
    pub blows: Vec<(f64, Stop)>,
    /// The same rule with a stop inside an iteration.
    pub early: Vec<(f64, Stop)>,
    /// What the frames depend on.
    pub seed: u64,
}

/// What a run counted.
#[derive(Clone, Debug, PartialEq)]
pub struct Results {
    /// The sweep over g.
    pub scaling: Vec<Count>,
    /// The curve.
    pub curve: Vec<Count>,
    /// The sweep over the cost scale.
    pub costs: Vec<Count>,
    /// The sweep over g by column weight.
    pub weights: Vec<Sweep>,
    /// The codes with long checks.
    pub long_checks: Vec<LongChecks>,
    /// The symbols by their margins, at each Eb/N0.
    pub margins: Vec<Worth>,
    /// Eight channels with one allowance, at each Eb/N0.
    pub sharing: Vec<Sharing>,
    /// Two blows for each word, at each Eb/N0.
    pub blows: Vec<Blows>,
    /// A stop inside an iteration, at each Eb/N0.
    pub early: Vec<Early>,
}

/// An Eb/N0 with the errors and the frames of its trial at size 1.
type Size1 = (f64, usize, usize);

/// The curve.
const CURVE: [Size1; 7] = [
    (1.75, 100, 200),
    (2.0, 100, 300),
    (2.25, 100, 500),
    (2.5, 100, 1_000),
    (2.75, 100, 3_000),
    (3.0, 100, 6_000),
    (3.25, 100, 8_000),
];
/// The sweep over g.
const SCALING: [Size1; 2] = [(2.5, 1_000, 1_000), (2.75, 500, 500)];
/// The sweep over g by column weight.
const WEIGHTS: [Size1; 3] = [
    (1.5, 1_000, 1_000),
    (2.0, 2_000, 2_000),
    (2.5, 1_000, 1_000),
];
/// The symbols by their margins.
const MARGINS: [Size1; 3] = [(2.25, 400, 2_000), (2.5, 400, 5_000), (2.75, 400, 25_000)];
/// Eight channels with one allowance.
const SHARING: [Size1; 3] = [(2.5, 200, 1_600), (2.75, 100, 4_000), (3.0, 100, 8_000)];
/// Two blows for each word: where combined ones are lost, then where single ones are found.
const BLOWS: [Size1; 11] = [
    (-1.0, 100, 200),
    (-0.75, 100, 300),
    (-0.5, 100, 800),
    (-0.25, 100, 3_000),
    (0.0, 100, 6_000),
    (1.75, 100, 200),
    (2.0, 100, 400),
    (2.25, 100, 1_000),
    (2.5, 100, 3_000),
    (2.75, 100, 6_000),
    (3.0, 100, 6_000),
];
/// The frames at each Eb/N0 of the curve, with a stop inside an iteration.
const EARLY: usize = 2_000;
/// The sweep and the curve of each code with long checks.
const LONG_CHECKS: [(Size1, &[Size1]); 2] = [
    (
        (4.0, 600, 600),
        &[
            (3.25, 100, 200),
            (3.5, 100, 300),
            (3.75, 100, 600),
            (4.0, 100, 2_000),
            (4.25, 100, 5_000),
            (4.5, 100, 6_000),
        ],
    ),
    (
        (4.25, 400, 400),
        &[
            (3.75, 100, 200),
            (4.0, 100, 400),
            (4.25, 100, 1_500),
            (4.5, 100, 2_500),
            (4.75, 100, 3_000),
        ],
    ),
];

impl Plan {
    /// The plan of a size; 1 is the default, and the errors and frames of a trial grow with it.
    pub fn sized(size: f64, seed: u64) -> Plan {
        let stop = |&(decibels, errors, frames): &Size1| {
            let grown = |count: usize| ((count as f64 * size).ceil() as usize).max(1);
            let stop = Stop {
                errors: grown(errors),
                frames: grown(frames),
            };
            (decibels, stop)
        };
        let stops = |list: &[Size1]| list.iter().map(stop).collect();
        Plan {
            curve: stops(&CURVE),
            scaling: stops(&SCALING),
            costs: stops(&[(2.5, 300, 300)]),
            weights: stops(&WEIGHTS),
            long_checks: LONG_CHECKS.map(|(sweep, curve)| Trials {
                sweep: stop(&sweep),
                curve: stops(curve),
            }),
            margins: stops(&MARGINS),
            sharing: stops(&SHARING),
            blows: stops(&BLOWS),
            early: stops(&CURVE.map(|(decibels, ..)| (decibels, EARLY, EARLY))),
            seed,
        }
    }

    /// Runs every trial. The seeds of their frames are drawn in the order of the document, in which the sweep
    /// over g stands behind the curve.
    pub fn run(&self, scene: &Scene, progress: &mut Progress) -> Results {
        let mut seeds = Generator::new(self.seed);
        let [of_curve, of_scaling, of_costs] = [&self.curve, &self.scaling, &self.costs]
            .map(|trials| trials.iter().map(|_| seeds.bits()).collect::<Vec<_>>());
        let mut stage = |name: &str, trials: &[(f64, Stop)], seeds: &[u64], setups: &[Setup]| {
            progress.stage(name);
            let trials = trials.iter().zip(seeds);
            let trial =
                |(&(decibels, stop), &seed)| scene.trial(decibels, setups, stop, seed, progress);
            trials.flat_map(trial).collect::<Vec<Count>>()
        };
        let scaling = stage("sweep over g", &self.scaling, &of_scaling, &over_g());
        let best = RULES.map(|rule| (rule, best_g(&scaling, rule)));
        let curve = stage("curve", &self.curve, &of_curve, &at(best, COSTS_PER_NAT));
        let over_scale = SCALES.map(|scale| at(best, scale)).concat();
        let costs = stage("cost scale", &self.costs, &of_costs, &over_scale);
        let weights = self.by_weight(&mut seeds, progress);
        let long_checks = self.with_long_checks(&mut seeds, progress);
        let mut proved = Proved {
            scene,
            setup: at(best, COSTS_PER_NAT)[0],
            seeds: &mut seeds,
            progress,
        };
        let results = Results {
            scaling,
            curve,
            costs,
            weights,
            long_checks,
            margins: proved.stage("symbols by margin", &self.margins, margins::run),
            sharing: proved.stage("eight channels", &self.sharing, sharing::run),
            blows: proved.stage("two blows", &self.blows, blows::run),
            early: proved.stage("early stops", &self.early, early::run),
        };
        progress.end();
        results
    }

    /// The codes with long checks.
    fn with_long_checks(&self, seeds: &mut Generator, progress: &mut Progress) -> Vec<LongChecks> {
        progress.stage("long checks");
        let codes = long_checks::codes().into_iter().zip(&self.long_checks);
        codes
            .map(|(code, trials)| long_checks::run(code, trials, seeds, progress))
            .collect()
    }

    /// The sweep over g by column weight.
    fn by_weight(&self, seeds: &mut Generator, progress: &mut Progress) -> Vec<Sweep> {
        progress.stage("sweep over g by column weight");
        let trials = weights::codes().into_iter().zip(&self.weights);
        trials
            .map(|(code, &(decibels, stop))| {
                weights::sweep(code, decibels, stop, seeds.bits(), progress)
            })
            .collect()
    }
}

/// What trials of the proved library on the simulation's code share.
struct Proved<'a> {
    scene: &'a Scene,
    setup: Setup,
    seeds: &'a mut Generator,
    progress: &'a mut Progress,
}

/// A trial at one Eb/N0, with the seed of its frames.
type Trial<T> = fn(&Scene, Setup, (f64, Stop), u64, &mut Progress) -> T;

impl Proved<'_> {
    /// The trials of one kind.
    fn stage<T>(&mut self, name: &str, trials: &[(f64, Stop)], run: Trial<T>) -> Vec<T> {
        self.progress.stage(name);
        let (scene, setup) = (self.scene, self.setup);
        let run = |&trial| run(scene, setup, trial, self.seeds.bits(), self.progress);
        trials.iter().map(run).collect()
    }
}

/// Every rule with each of its swept g.
fn over_g() -> Vec<Setup> {
    let of_rule = |(rule, gs): (Rule, RangeInclusive<u8>)| gs.map(move |g| (rule, g));
    let setups = RULES.into_iter().zip(GS).flat_map(of_rule);
    setups
        .flat_map(|setup| at([setup], COSTS_PER_NAT))
        .collect()
}

/// Rules, each with a g, with one cost scale.
fn at<const N: usize>(rules: [(Rule, u8); N], costs_per_nat: f64) -> [Setup; N] {
    rules.map(|(rule, g)| Setup {
        rule,
        g,
        costs_per_nat,
    })
}

/// The g with which a rule made the fewest frame errors in the whole sweep, the smallest where several are
/// equal.
pub fn best_g(scaling: &[Count], rule: Rule) -> u8 {
    let of_rule = || scaling.iter().filter(|count| count.setup.rule == rule);
    let errors = |g: u8| -> usize {
        let of_g = of_rule().filter(|count| count.setup.g == g);
        of_g.map(|count| count.tally.frame_errors()).sum()
    };
    let gs = of_rule().map(|count| count.setup.g);
    gs.min_by_key(|&g| (errors(g), g)).expect("a swept rule")
}
