//! Codes with long checks, with k = 2 and with k = 3 on the same frames. Document 02, §3: "Long checks of
//! degree 24 and more lose frames that a third deviation would save."

use petsivola::Edition;
use reference_decoder::sample::Generator;

use crate::code::Code;
use crate::plan::{COSTS_PER_NAT, LIMIT};
use crate::plane::{self, Size};
use crate::progress::Progress;
use crate::sweep::{Shape, Sweep};
use crate::trial::{Count, Rule, Scene, Setup, Stop};

/// Both k.
pub const DEVIATIONS: [usize; 2] = [2, 3];

/// The swept g.
const GS: [u8; 7] = [5, 6, 7, 8, 9, 10, 11];

/// What the weights of the codes depend on.
const SEED: u64 = 1;

/// The trials of one code.
#[derive(Clone, Debug, PartialEq)]
pub struct Trials {
    /// Both k with every g.
    pub sweep: (f64, Stop),
    /// Both k over Eb/N0.
    pub curve: Vec<(f64, Stop)>,
}

/// What was counted with one code.
#[derive(Clone, Debug, PartialEq)]
pub struct LongChecks {
    /// Every g with k = 2, then with k = 3, on the same frames.
    pub sweeps: [Sweep; 2],
    /// Each k at its best g of the sweep, with k = 2 and then with k = 3 at each Eb/N0, on the same frames.
    pub curve: Vec<Count>,
}

/// The codes, over GF(64) and of column weight 4: degree 24, and degree 32 with all the edges there may be.
pub fn codes() -> [Code; 2] {
    [3, 4].map(|layers| {
        let size = Size {
            p: 6,
            weight: 4,
            layers,
        };
        plane::code(size, SEED)
    })
}

/// Runs the trials of one code.
pub fn run(
    code: Code,
    trials: &Trials,
    seeds: &mut Generator,
    progress: &mut Progress,
) -> LongChecks {
    let scene = Scene::new(code, LIMIT);
    let shape = Shape::of(&scene);
    let setups = DEVIATIONS.map(|k| GS.map(|g| setup(k, g)));
    let (decibels, stop) = trials.sweep;
    let counts = scene.trial(decibels, &setups.concat(), stop, seeds.bits(), progress);
    let sweeps = DEVIATIONS.map(|k| Sweep {
        shape,
        counts: of_deviations(&counts, k),
    });
    let best = |sweep: &Sweep| sweep.best()[0].setup;
    let setups = sweeps.each_ref().map(best);
    let mut curve = Vec::new();
    for &(decibels, stop) in &trials.curve {
        curve.extend(scene.trial(decibels, &setups, stop, seeds.bits(), progress));
    }
    LongChecks { sweeps, curve }
}

/// The proved decoder with k and g.
fn setup(k: usize, g: u8) -> Setup {
    Setup {
        rule: Rule::Proved(k, Edition::Sum),
        g,
        costs_per_nat: COSTS_PER_NAT,
    }
}

/// The counts with one k.
fn of_deviations(counts: &[Count], k: usize) -> Vec<Count> {
    let counts = counts.iter().copied();
    counts
        .filter(|count| count.setup.rule == Rule::Proved(k, Edition::Sum))
        .collect()
}
