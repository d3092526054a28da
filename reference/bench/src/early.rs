//! The times of a decoding that stops inside an iteration, beside `decode`: of a check update, and of whole calls.

use petsivola::Edition;
use reference_decoder::sample::Buffers;
use simulate::code::Code;

use crate::accepted::Refusal;
use crate::decoding::{self, LIMIT, SCALE};
use crate::engines::{Engine, Results};
use crate::inputs::Job;
use crate::same;
use crate::timing::{median, race, Contender, Rules};

/// Where M stands in a code line.
const CHECKS: usize = 3;

/// Who decodes: the proved library and the same algorithm in Rust, each stopping inside an iteration, and `decode`.
const DECODING: [Engine; 3] = [Engine::ProvedEarly, Engine::Rust, Engine::Proved];

/// A decoding: code line, frame, symbols, costs, store and margins; answers 0 (found) or 1 (not found), and the check
/// updates.
type Decode =
    fn(&[u8], &[u8], &mut [u8], &mut [u16], &mut [u8], &mut [u16]) -> Result<(u8, u16), Refusal>;

/// What a decoding leaves.
#[derive(Clone, Debug)]
struct Decoded {
    /// Whether it may stop inside an iteration.
    early: bool,
    status: u8,
    updates: u16,
    lent: Buffers,
}

impl Decoded {
    /// The buffers for a code, lent to an engine.
    fn lent(code: &Code, engine: Engine) -> Decoded {
        let (n, store) = (code.columns, code.store_length(2));
        Decoded {
            early: engine != Engine::Proved,
            status: 0,
            updates: 0,
            lent: Buffers::zeroed([n, code.frame_length(), store, n]),
        }
    }

    /// Whether another decoding left the same.
    fn is_same(&self, other: &Decoded) -> bool {
        (self.status, self.updates) == (other.status, other.updates) && self.lent == other.lent
    }
}

/// Everything is filled with A5 beforehand and compared whole, with one exception: `decode` goes on where the other
/// stops inside an iteration with a word found.
const RULES: Rules<Decoded> = Rules {
    spoil: |decoded| {
        (decoded.status, decoded.updates) = (0xA5, 0xA5A5);
        decoded.lent.symbols.fill(0xA5);
        decoded.lent.costs.fill(0xA5A5);
        decoded.lent.store.fill(0xA5);
        decoded.lent.margins.fill(0xA5A5);
    },
    agree: |early, other| {
        let goes_on = !other.early && early.status == 0 && early.updates < other.updates;
        goes_on || early.is_same(other)
    },
    units: |decoded| usize::from(decoded.updates),
};

/// The times for one code, each the seconds of one check update: a call's time, with the reading of the code line and
/// the first test, by the updates that it made. An iteration of `decode` has M.
pub struct Row<'a> {
    /// The code and its frames.
    pub job: &'a Job,
    /// The updates of a frame on average, by `decode_early`.
    pub early_updates: f64,
    /// The same by `decode`.
    pub decode_updates: f64,
    /// The decodings.
    pub update: Results,
    /// In each round, the time of `decode_early` for all frames by that of `decode`.
    whole: Vec<f64>,
}

impl Row<'_> {
    /// The time of an update of `decode_early` by that of an update of `decode`.
    pub fn of_update(&self) -> f64 {
        self.update.ratio(Engine::ProvedEarly, Engine::Proved)
    }

    /// The time of `decode_early` for all frames by that of `decode`: the median over the rounds.
    pub fn of_frames(&self) -> f64 {
        median(self.whole.clone())
    }

    /// The part of the updates of `decode` that `decode_early` does not make.
    pub fn saved(&self) -> f64 {
        1.0 - self.early_updates / self.decode_updates
    }
}

/// Measures one code, with all its frames in each round.
pub fn measure(job: &Job, rounds: usize) -> Row<'_> {
    let line = job.code.line(2, Edition::Sum, SCALE, LIMIT);
    let mut contenders = DECODING.map(|engine| contender(engine, job, &line));
    let (mut update, mut whole) = (Results::default(), Vec::new());
    for round in 0..rounds {
        let times = race(&mut contenders, round, &RULES);
        whole.push(times[0].whole_ratio(&times[2]));
        update.append(&DECODING, times);
    }
    let mean = |contender: &Contender<Vec<u8>, Decoded>| {
        let updates: usize = contender.outputs().iter().map(RULES.units).sum();
        updates as f64 / job.frame_count() as f64
    };
    let [early_updates, _, decode_updates] = contenders.each_ref().map(mean);
    Row {
        job,
        early_updates,
        decode_updates,
        update,
        whole,
    }
}

/// An engine on the frames of a code.
fn contender<'a>(engine: Engine, job: &'a Job, line: &'a [u8]) -> Contender<'a, Vec<u8>, Decoded> {
    let decode: Decode = match engine {
        Engine::ProvedEarly => proved_early,
        Engine::Rust => same::decode_early,
        _ => proved,
    };
    let lent = Decoded::lent(&job.code, engine);
    Contender::new(&job.frames, lent, move |frame, out| {
        let (symbols, costs) = (&mut out.lent.symbols, &mut out.lent.costs);
        let (store, margins) = (&mut out.lent.store, &mut out.lent.margins);
        let answer = decode(line, frame, symbols, costs, store, margins);
        (out.status, out.updates) = answer.expect("an accepted frame");
    })
}

/// The proved library's decoding that stops inside an iteration, its refusals as numbers.
fn proved_early(
    line: &[u8],
    frame: &[u8],
    symbols: &mut [u8],
    costs: &mut [u16],
    store: &mut [u8],
    margins: &mut [u16],
) -> Result<(u8, u16), Refusal> {
    let stopped = petsivola::decode_early(line, frame, symbols, costs, store, margins);
    let stopped = stopped.map_err(|refusal| refusal.number() as Refusal)?;
    Ok((stopped.status(), stopped.updates()))
}

/// Its `decode`, whose updates are "M times the t".
fn proved(
    line: &[u8],
    frame: &[u8],
    symbols: &mut [u8],
    costs: &mut [u16],
    store: &mut [u8],
    margins: &mut [u16],
) -> Result<(u8, u16), Refusal> {
    let (status, t) = decoding::proved(line, frame, symbols, costs, store, margins)?;
    Ok((status, u16::from(line[CHECKS]) * u16::from(t)))
}

#[cfg(test)]
mod tests {
    use super::*;

    /// A decoding that ends so and leaves this symbol.
    fn decoded(early: bool, status: u8, updates: u16, symbol: u8) -> Decoded {
        let mut lent = Buffers::zeroed([1, 4, 8, 1]);
        lent.symbols[0] = symbol;
        Decoded {
            early,
            status,
            updates,
            lent,
        }
    }

    #[test]
    fn the_same_algorithm_leaves_the_same() {
        let first = decoded(true, 0, 7, 1);
        assert!((RULES.agree)(&first, &decoded(true, 0, 7, 1)));
        assert!(!(RULES.agree)(&first, &decoded(true, 0, 7, 2)));
        assert!(!(RULES.agree)(&first, &decoded(true, 0, 8, 1)));
        assert!(!(RULES.agree)(&first, &decoded(true, 1, 7, 1)));
    }

    /// "It never makes more updates than M times the t of the ordinary call on the same input."
    #[test]
    fn decode_goes_on_or_leaves_the_same() {
        let first = decoded(true, 0, 8, 1);
        assert!((RULES.agree)(&first, &decoded(false, 0, 8, 1)));
        assert!(!(RULES.agree)(&first, &decoded(false, 0, 8, 2)));
        assert!(!(RULES.agree)(&first, &decoded(false, 0, 4, 1)));
        assert!((RULES.agree)(&first, &decoded(false, 1, 12, 2)));
        let not_found = decoded(true, 1, 8, 1);
        assert!(!(RULES.agree)(&not_found, &decoded(false, 0, 12, 1)));
    }
}
