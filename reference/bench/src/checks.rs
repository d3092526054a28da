//! The times of one check, with k = 2 and with k = 3 and in both editions, and of one expansion by p and d.

mod expansions;
pub mod swept;

use std::fmt::Debug;

use petsivola::Edition;
use reference_decoder::sample::CheckSample;

use crate::engines::{Engine, Results};
use crate::inputs::{self, Costs};
use crate::timing::{race, Contender, Rules, Times};
use crate::{foreign, same, search_engine, sweeps};
use expansions::Packed;

/// Every p.
pub const PS: [u8; 5] = [2, 3, 4, 5, 6];
/// The degrees.
pub const DEGREES: [usize; 6] = [3, 4, 6, 8, 16, 32];
/// The checks of each size in a round at p = 6. With q halved there are twice as many: they take less
/// time.
const COUNT: usize = 160;

/// Who makes checks with k = 2.
const CHECKING: [Engine; 7] = [
    Engine::Proved,
    Engine::Rust,
    Engine::Search,
    Engine::Sse2,
    Engine::Avx2,
    Engine::Sweeps,
    Engine::Old,
];
/// Who makes checks with k = 3, and beside them with k = 2.
const DEVIATING: [Engine; 5] = [
    Engine::Proved,
    Engine::Rust,
    Engine::Sweeps,
    Engine::ProvedTwo,
    Engine::RustTwo,
];
/// Who makes checks of the Min-Max edition, and beside them with the sum.
const JOINING: [Engine; 4] = [
    Engine::Proved,
    Engine::Rust,
    Engine::ProvedSum,
    Engine::RustSum,
];
/// Every k.
pub const DEVIATIONS: [usize; 2] = [2, 3];

/// A lent record buffer, with the first byte of the check that fills it.
#[derive(Clone)]
struct Lent {
    first: u8,
    record: Vec<u8>,
}

/// The buffers are filled with A5 beforehand, and every byte is compared where the first bytes are the same.
const RECORDS: Rules<Lent> = Rules {
    spoil: |lent| lent.record.fill(0xA5),
    agree: |one, other| one.first != other.first || one.record == other.record,
    units: |_| 1,
};

/// The times for one size.
pub struct Row {
    /// p.
    pub p: u8,
    /// d.
    pub degree: usize,
    /// The checks with k = 2.
    pub check: Results,
    /// The checks with k = 3, and beside them with k = 2.
    pub three: Results,
    /// The checks of the Min-Max edition, with k = 2 and with k = 3, and beside them with the sum.
    pub min_max: [Results; 2],
    /// The expansions.
    pub expand: Results,
}

impl Row {
    /// A size that is not measured yet.
    pub fn new(p: u8, degree: usize) -> Row {
        Row {
            p,
            degree,
            check: Results::default(),
            three: Results::default(),
            min_max: Default::default(),
            expand: Results::default(),
        }
    }

    /// The bytes of a record: "1 + 2k bytes a symbol" behind the d shifts.
    pub fn record_length(&self, k: usize) -> usize {
        self.degree + (1 + 2 * k) * ((1 << self.p) - 1)
    }

    /// The bytes of plain messages, d times q.
    pub fn plain_length(&self) -> usize {
        self.degree << self.p
    }

    /// The proved library's time for a check of the Min-Max edition with this k by that with the sum.
    pub fn min_max_by_sum(&self, k: usize) -> f64 {
        self.min_max[k - 2].ratio(Engine::Proved, Engine::ProvedSum)
    }

    /// Measures so many checks of the first round with k = 2 and their expansions, and as many of each other
    /// round with k = 3, and of the Min-Max edition with either k.
    pub fn measure(&mut self, costs: Costs, rounds: [usize; 4], count: usize) {
        let checks = |round| inputs::checks(self.p, self.degree, costs, round, count);
        let [two, three, min_max @ ..] = rounds;
        let inputs = checks(two);
        let min_max = min_max.map(|round| (checks(round), round));
        let others = checks(three);
        let records = self.race_checks(&inputs, two);
        self.race_deviations(&others, three);
        for (k, (inputs, round)) in DEVIATIONS.into_iter().zip(min_max) {
            self.race_editions(k, &inputs, round);
        }
        let packed = inputs.into_iter().zip(records);
        let packed = packed.map(|(check, record)| Packed { check, record });
        let (engines, times) = expansions::race_of(self.p, &packed.collect::<Vec<_>>(), two);
        self.expand.append(&engines, times);
    }

    /// One round of checks with k = 2. Answers their records.
    fn race_checks(&mut self, inputs: &[CheckSample], round: usize) -> Vec<Vec<u8>> {
        let engines = Engine::present(CHECKING);
        let contender = |&engine| self.checking(engine, 2, Edition::Sum, inputs);
        let mut contenders: Vec<_> = engines.iter().map(contender).collect();
        let times = race(&mut contenders, round, &RECORDS);
        let records = contenders[0].outputs().iter();
        let records = records.map(|lent| lent.record.clone()).collect();
        self.check.append(&engines, times);
        records
    }

    /// One round of checks with k = 3.
    fn race_deviations(&mut self, inputs: &[CheckSample], round: usize) {
        let mut contenders = DEVIATING.map(|engine| self.checking(engine, 3, Edition::Sum, inputs));
        let times = race(&mut contenders, round, &RECORDS);
        self.three.append(&DEVIATING, times);
    }

    /// One round of checks of the Min-Max edition.
    fn race_editions(&mut self, k: usize, inputs: &[CheckSample], round: usize) {
        let mut contenders =
            JOINING.map(|engine| self.checking(engine, k, Edition::Greatest, inputs));
        let times = race(&mut contenders, round, &RECORDS);
        self.min_max[k - 2].append(&JOINING, times);
    }

    /// What an engine is lent for a check with this k and edition; a few always have k = 2, or the sum.
    fn lent(&self, engine: Engine, k: usize, edition: Edition) -> Lent {
        let (k, edition) = match engine {
            Engine::ProvedTwo | Engine::RustTwo => (2, edition),
            Engine::ProvedSum | Engine::RustSum => (k, Edition::Sum),
            _ => (k, edition),
        };
        Lent {
            first: inputs::first_byte(self.p, k, edition),
            record: vec![0; self.record_length(k)],
        }
    }

    /// An engine on some checks with this k and edition.
    fn checking<'a>(
        &self,
        engine: Engine,
        k: usize,
        edition: Edition,
        inputs: &'a [CheckSample],
    ) -> Contender<'a, CheckSample, Lent> {
        let lent = self.lent(engine, k, edition);
        match engine {
            Engine::Proved | Engine::ProvedTwo | Engine::ProvedSum => {
                Contender::new(inputs, lent, check_by(petsivola::check))
            }
            Engine::ProvedSweep => Contender::new(inputs, lent, check_by(petsivola::sweep)),
            Engine::Rust | Engine::RustTwo | Engine::RustSum => {
                Contender::new(inputs, lent, check_by(same::check))
            }
            Engine::Search => Contender::new(inputs, lent, check_by(search_engine::check)),
            Engine::Sse2 => Contender::new(inputs, lent, check_by(foreign::check_sse2)),
            Engine::Avx2 => {
                let check = foreign::check_avx2().expect("AVX2 is present");
                Contender::new(inputs, lent, check_by(check))
            }
            Engine::Sweeps => {
                // Its tables are kept from call to call.
                let mut sweeps = sweeps::Engine::<false>::new(self.p, k);
                Contender::new(inputs, lent, move |input: &CheckSample, lent| {
                    sweeps.check(&input.weights, &input.costs, &mut lent.record)
                })
            }
            Engine::Old => {
                let old = foreign::old_library().expect("the old library is present");
                Contender::new(inputs, lent, check_by(old.check))
            }
            Engine::ProvedWindow | Engine::ProvedChannels | Engine::ProvedEarly => {
                unreachable!("none of them makes a single check")
            }
        }
    }
}

/// A check as a call on one input.
fn check_by<E: Debug>(
    check: impl Fn(u8, &[u8], &[u8], &mut [u8]) -> Result<usize, E>,
) -> impl FnMut(&CheckSample, &mut Lent) {
    move |input, lent| {
        let (weights, costs) = (&input.weights, &input.costs);
        check(lent.first, weights, costs, &mut lent.record).expect("an accepted check");
    }
}

/// Measures every size in each round, on checks that no other round has.
pub fn table(costs: Costs, rounds: usize) -> Vec<Row> {
    let sizes = PS.iter();
    let sizes = sizes.flat_map(|&p| DEGREES.map(|degree| Row::new(p, degree)));
    let mut rows: Vec<Row> = sizes.collect();
    for round in 0..rounds {
        eprintln!("check, {costs:?} costs, round {} of {rounds}", round + 1);
        for row in &mut rows {
            let races = [0, 1, 2, 3].map(|race| race * rounds + round);
            row.measure(costs, races, COUNT << (6 - row.p));
        }
    }
    rows
}

/// How many times as long a check of degree 32 takes as one of degree 16 at p = 6, measured in turn.
pub fn growth(costs: Costs, rounds: usize) -> f64 {
    let mut times = [Times::default(), Times::default()];
    for round in 0..rounds {
        for (times, further) in times.iter_mut().zip(race_growth(costs, round)) {
            times.append(further);
        }
    }
    let [single, double] = times;
    double.ratio(&single)
}

/// One round of degree 16 and degree 32.
fn race_growth(costs: Costs, round: usize) -> Vec<Times> {
    let p = 6;
    let [single, double] = [16, 32].map(|degree| inputs::checks(p, degree, costs, round, COUNT));
    let inputs: Vec<_> = single.into_iter().zip(double).collect();
    let lent = Lent {
        first: p,
        record: vec![0; 32 + 5 * 63],
    };
    let mut checks = [0; 2].map(|_| check_by(petsivola::check));
    let [first, second] = &mut checks;
    let mut contenders = [
        Contender::new(
            &inputs,
            lent.clone(),
            |(input, _): &(CheckSample, _), out| first(input, out),
        ),
        Contender::new(&inputs, lent, |(_, input), out| second(input, out)),
    ];
    // The two work on different checks.
    let rules = Rules {
        agree: |_, _| true,
        ..RECORDS
    };
    race(&mut contenders, round, &rules)
}
