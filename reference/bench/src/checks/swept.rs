//! The times of the proved library's `sweep` beside those of its `check`, and beside the textbook sweeps in
//! Rust. Nothing is asked of them: the sweep is there to be followed on paper.

use petsivola::Edition;

use super::{Row, DEVIATIONS, PS, RECORDS};
use crate::engines::{Engine, Results};
use crate::inputs::{self, Costs};
use crate::timing::race;

/// The degrees: fewer than for other checks, since a sweep takes long.
pub const DEGREES: [usize; 3] = [3, 8, 32];
/// The checks of each size in a round at p = 6, twice as many with q halved.
const COUNT: usize = 16;

/// Who makes the checks. The first says how long a stretch is.
const SWEEPING: [Engine; 3] = [Engine::Proved, Engine::ProvedSweep, Engine::Sweeps];

/// The times for one size, with costs from the channel and the sum.
pub struct Swept {
    /// p.
    pub p: u8,
    /// d.
    pub degree: usize,
    /// The checks with k = 2 and with k = 3.
    pub checks: [Results; 2],
}

impl Swept {
    /// A size that is not measured yet.
    pub fn new(p: u8, degree: usize) -> Swept {
        Swept {
            p,
            degree,
            checks: Default::default(),
        }
    }

    /// How many times as long the proved library's sweep takes as its check, with this k.
    pub fn by_check(&self, k: usize) -> f64 {
        self.checks[k - 2].ratio(Engine::ProvedSweep, Engine::Proved)
    }

    /// Measures so many checks of the first round with k = 2, and as many of the second with k = 3.
    pub fn measure(&mut self, rounds: [usize; 2], count: usize) {
        let size = Row::new(self.p, self.degree);
        for (k, round) in DEVIATIONS.into_iter().zip(rounds) {
            let inputs = inputs::checks(self.p, self.degree, Costs::Channel, round, count);
            let contender = |engine| size.checking(engine, k, Edition::Sum, &inputs);
            let times = race(&mut SWEEPING.map(contender), round, &RECORDS);
            self.checks[k - 2].append(&SWEEPING, times);
        }
    }
}

/// Measures every size in each round, on checks that no other round and no other table has.
pub fn table(rounds: usize) -> Vec<Swept> {
    let sizes = PS.iter();
    let sizes = sizes.flat_map(|&p| DEGREES.map(|degree| Swept::new(p, degree)));
    let mut rows: Vec<Swept> = sizes.collect();
    for round in 0..rounds {
        eprintln!("sweep, round {} of {rounds}", round + 1);
        for row in &mut rows {
            let races = [4, 5].map(|race| race * rounds + round);
            row.measure(races, COUNT << (6 - row.p));
        }
    }
    rows
}
