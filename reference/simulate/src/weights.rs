//! The sweep over g by column weight: codes of weight 2, 3 and 4. A column gets what each of its checks
//! sends added, so a scale that is right for one column weight need not be right for another.

use petsivola::Edition;

use crate::array;
use crate::code::Code;
use crate::cyclic::{self, Size};
use crate::plan::{COSTS_PER_NAT, LIMIT};
use crate::progress::Progress;
use crate::sweep::{Shape, Sweep};
use crate::trial::{Rule, Scene, Setup, Stop};

/// What the weights of the quasi-cyclic codes depend on.
const SEED: u64 = 1;

/// The codes, rising in their column weight: two quasi-cyclic ones and the code of the other trials.
pub fn codes() -> [Code; 3] {
    let cyclic = |p, weight, degree, circle| {
        let size = Size {
            p,
            weight,
            degree,
            circle,
        };
        cyclic::code(size, SEED)
    };
    [cyclic(6, 2, 4, 24), cyclic(4, 3, 6, 40), array::code()]
}

/// The proved decoder with every g from 6 to 16 on the same frames.
pub fn sweep(code: Code, decibels: f64, stop: Stop, seed: u64, progress: &mut Progress) -> Sweep {
    let setup = |g| Setup {
        rule: Rule::Proved(2, Edition::Sum),
        g,
        costs_per_nat: COSTS_PER_NAT,
    };
    let setups: Vec<Setup> = (6..=16).map(setup).collect();
    let scene = Scene::new(code, LIMIT);
    Sweep {
        shape: Shape::of(&scene),
        counts: scene.trial(decibels, &setups, stop, seed, progress),
    }
}
