//! What is timed: checks of every size, codes with frames, and a code with messages.

use petsivola::lengths::MOST_CHANNELS;
use petsivola::{Edition, Rule};
use reference_decoder::sample::{self, CheckSample, Generator, Size, Style};
use reference_decoder::Join;
use simulate::array;
use simulate::channel::Channel;
use simulate::code::{Code, Edge};
use simulate::encoder::Encoder;
use simulate::field::Field;
use simulate::quantiser::Quantiser;

/// The costs per nat of every frame; the simulation's sweep shows that finer costs gain nothing.
const QUANTISER: Quantiser = Quantiser { costs_per_nat: 8.0 };

/// Where the costs of a check come from. A cheapest choice of one column saves a search, so the time
/// depends on the costs.
#[derive(Clone, Copy, Debug, PartialEq, Eq)]
pub enum Costs {
    /// Quantised symbols of a noisy channel, as the first iteration brings them.
    Channel,
    /// Any cost from 0 to 255, with a 0 in each column.
    Uniform,
}

/// The first byte for p, k, 2 or 3, and an edition.
pub fn first_byte(p: u8, k: usize, edition: Edition) -> u8 {
    let rule = Rule::new(p, k as u8, edition);
    rule.expect("p 2 to 6 and k 2 or 3").first()
}

/// The checks of one size in one round; they serve for every k and both editions.
pub fn checks(p: u8, degree: usize, costs: Costs, round: usize, count: usize) -> Vec<CheckSample> {
    let size = u64::from(p) * 64 + degree as u64;
    let mut generator = Generator::new(round as u64 * 512 + size);
    let channel = Channel::new(2.5, 0.5);
    let mut check = |_| {
        let mut check = sample::check(&mut generator, p, degree..=degree, Style::Uniform);
        if costs == Costs::Channel {
            let symbols = (0..degree).map(|_| generator.below(1 << p) as u8);
            let symbols = symbols.collect();
            let received = channel.send(&mut generator, p, symbols);
            check.costs = QUANTISER.frame(p, &received.ratios);
        }
        check
    };
    (0..count).map(&mut check).collect()
}

/// A code with frames to decode.
pub struct Job {
    /// What the code is.
    pub name: &'static str,
    /// The code.
    pub code: Code,
    /// The Eb/N0 of the frames in decibels.
    pub decibels: f64,
    /// Noisy words, as costs: the frames of one call each, one or several end to end.
    pub frames: Vec<Vec<u8>>,
}

impl Job {
    /// How many frames there are in all calls.
    pub fn frame_count(&self) -> usize {
        let costs: usize = self.frames.iter().map(Vec::len).sum();
        costs / self.code.frame_length()
    }

    /// The same frames, eight of them to a call.
    fn by_eight(self) -> Job {
        let calls = self.frames.chunks_exact(MOST_CHANNELS);
        Job {
            frames: calls.map(<[Vec<u8>]>::concat).collect(),
            ..self
        }
    }
}

/// The name of the simulation's code.
pub const SIMULATED: &str = "(248,137) over GF(32), degree 8";
/// The name of the code at the limits of document 01.
pub const AT_THE_LIMITS: &str = "N = 256, p = 6, M = 128, degree 8";

/// The codes: at the limits of document 01, the code of the simulation, and a small one.
pub fn jobs() -> Vec<Job> {
    vec![at_the_limits(4), simulated(6), small()]
}

/// The codes of the register window: that of the simulation, one with p = 4, and a small one.
pub fn window_jobs() -> Vec<Job> {
    vec![simulated(6), of_sixteen(), small()]
}

/// The codes of eight channels: those of the register window, and that at the limits of document 01.
pub fn channel_jobs() -> Vec<Job> {
    let jobs = [simulated(16), of_sixteen(), small(), at_the_limits(16)];
    jobs.map(Job::by_eight).into()
}

/// The codes of stopping inside an iteration: those of decoding, and one with p = 4.
pub fn early_jobs() -> Vec<Job> {
    vec![at_the_limits(4), simulated(6), of_sixteen(), small()]
}

/// The code at the limits of document 01, with so many frames.
fn at_the_limits(count: usize) -> Job {
    job(AT_THE_LIMITS, regular(6, 256, 8, 4), 3.5, count)
}

/// The code of the simulation, with so many frames.
fn simulated(count: usize) -> Job {
    job(SIMULATED, array::code(), 2.75, count)
}

/// A code with p = 4.
fn of_sixteen() -> Job {
    let name = "N = 96, p = 4, M = 48, degree 6";
    job(name, regular(4, 96, 6, 3), 2.5, 24)
}

/// A small code.
fn small() -> Job {
    let name = "N = 48, p = 2, M = 24, degree 6";
    job(name, regular(2, 48, 6, 3), 2.5, 48)
}

/// A code with so many frames at an Eb/N0.
fn job(name: &'static str, code: Code, decibels: f64, count: usize) -> Job {
    let mut generator = Generator::new(1);
    let encoder = Encoder::new(&code);
    let channel = Channel::new(decibels, encoder.rate());
    let frame = |_| {
        let word = encoder.random_word(&mut generator);
        let received = channel.send(&mut generator, code.p(), word);
        QUANTISER.frame(code.p(), &received.ratios)
    };
    Job {
        name,
        decibels,
        frames: (0..count).map(frame).collect(),
        code,
    }
}

/// A code for encoding.
pub struct Encodable {
    /// What the code is.
    pub name: &'static str,
    /// p.
    pub p: u8,
    /// N.
    pub columns: usize,
    /// M.
    pub checks: usize,
    /// The code line.
    pub line: Vec<u8>,
}

/// A random code "where N exceeds M and check m, counted from 0, contains column N - M + m and no higher
/// one", at document 01's limits.
pub fn encodable() -> Encodable {
    let size = Size {
        k: 2..=2,
        join: Join::Sum..=Join::Sum,
        ..Size::MOST_CHECKS
    };
    let code = sample::encodable_code(&mut Generator::new(3), &size);
    Encodable {
        name: AT_THE_LIMITS,
        p: code.field().p(),
        columns: code.n,
        checks: code.m,
        line: code.line(),
    }
}

/// The messages of one round.
pub fn messages(code: &Encodable, round: usize, count: usize) -> Vec<Vec<u8>> {
    let mut generator = Generator::new(round as u64);
    let length = code.columns - code.checks;
    let mut symbol = |_| generator.below(1 << code.p) as u8;
    (0..count)
        .map(|_| (0..length).map(&mut symbol).collect())
        .collect()
}

/// A random code in which every check has `degree` columns and every column is in `layers` checks:
/// each layer is a shuffled list of all columns, cut into checks.
fn regular(p: u8, columns: usize, degree: usize, layers: usize) -> Code {
    let mut generator = Generator::new(2);
    let field = Field::new(p);
    let mut checks = Vec::new();
    for _ in 0..layers {
        let mut list: Vec<usize> = (0..columns).collect();
        for place in (1..columns).rev() {
            list.swap(place, generator.below(place + 1));
        }
        for part in list.chunks_exact(degree) {
            let weights = sample::weights(&mut generator, p, degree);
            let edges = part.iter().zip(weights);
            let mut check: Vec<Edge> = edges
                .map(|(&column, weight)| Edge { column, weight })
                .collect();
            check.sort_unstable();
            checks.push(check);
        }
    }
    Code {
        field,
        columns,
        checks,
    }
}
