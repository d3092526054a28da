//! Who takes part in the races, and their times.

use crate::foreign;
use crate::timing::Times;

/// An implementation of a check, of an expansion or of a decoding.
#[derive(Clone, Copy, Debug, PartialEq, Eq)]
pub enum Engine {
    /// The proved library.
    Proved,
    /// The proved library's other call for a check, the trellis sweep engine.
    ProvedSweep,
    /// The proved library's other way to decode, the register window.
    ProvedWindow,
    /// The proved library's call for several channels.
    ProvedChannels,
    /// The proved library's decoding that stops inside an iteration.
    ProvedEarly,
    /// The same algorithm in Rust.
    Rust,
    /// The search over kept entries in Rust.
    Search,
    /// The same algorithm by hand in C, with SSE2.
    Sse2,
    /// The same with AVX2.
    Avx2,
    /// The textbook sweeps in Rust.
    Sweeps,
    /// An older proved library.
    Old,
    /// The proved library with k = 2, beside others with k = 3.
    ProvedTwo,
    /// The same algorithm in Rust with k = 2, beside others with k = 3.
    RustTwo,
    /// The proved library with the sum, beside others of the Min-Max edition.
    ProvedSum,
    /// The same algorithm in Rust with the sum, beside others of the Min-Max edition.
    RustSum,
}

impl Engine {
    /// As a table calls it.
    pub fn name(self) -> &'static str {
        match self {
            Engine::Proved => "proved",
            Engine::ProvedSweep => "proved sweep",
            Engine::ProvedWindow => "proved window",
            Engine::ProvedChannels => "proved channels",
            Engine::ProvedEarly => "proved early",
            Engine::Rust => "Rust",
            Engine::Search => "search",
            Engine::Sse2 => "C, SSE2",
            Engine::Avx2 => "C, AVX2",
            Engine::Sweeps => "sweeps",
            Engine::Old => "old",
            Engine::ProvedTwo => "proved, k = 2",
            Engine::RustTwo => "Rust, k = 2",
            Engine::ProvedSum => "proved, sum",
            Engine::RustSum => "Rust, sum",
        }
    }

    /// Whether this machine and this build have it.
    fn is_present(self) -> bool {
        match self {
            Engine::Avx2 => foreign::check_avx2().is_some(),
            Engine::Old => foreign::old_library().is_some(),
            _ => true,
        }
    }

    /// Those of some engines that are present.
    pub fn present<const N: usize>(engines: [Engine; N]) -> Vec<Engine> {
        let engines = engines.into_iter();
        engines.filter(|engine| engine.is_present()).collect()
    }
}

/// The times of all engines of a race, stretch by stretch.
#[derive(Clone, Debug, Default)]
pub struct Results(Vec<(Engine, Times)>);

impl Results {
    /// Adds the times of a race; every race has the same engines.
    pub fn append(&mut self, engines: &[Engine], further: Vec<Times>) {
        if self.0.is_empty() {
            let none = |&engine| (engine, Times::default());
            self.0 = engines.iter().map(none).collect();
        }
        for ((_, times), further) in self.0.iter_mut().zip(further) {
            times.append(further);
        }
    }

    /// The engines.
    pub fn engines(&self) -> impl Iterator<Item = Engine> + '_ {
        self.0.iter().map(|&(engine, _)| engine)
    }

    /// An engine's times; it took part.
    fn of(&self, engine: Engine) -> &Times {
        let found = self.0.iter().find(|(other, _)| *other == engine);
        &found.expect("an engine of the race").1
    }

    /// The median of an engine's times, in seconds.
    pub fn median(&self, engine: Engine) -> f64 {
        self.of(engine).median()
    }

    /// One engine's time by another's: the median over the stretches.
    pub fn ratio(&self, one: Engine, other: Engine) -> f64 {
        self.of(one).ratio(self.of(other))
    }
}
