//! The times of decoding by code: per iteration, and coded bits per second.

use petsivola::window::{REFUSAL_BIT, RESULT_BIT};
use petsivola::{Edition, Lent, State, Window};
use simulate::code::Code;
use simulate::decoder::Decoder;
use simulate::layered::Layered;

use crate::engines::{Engine, Results};
use crate::inputs::Job;
use crate::sweeps::Sweeps;
use crate::timing::{race, Contender, Rules};
use crate::{foreign, same};

/// g of every decoding.
pub const SCALE: u8 = 8;
/// I of every decoding.
pub const LIMIT: u8 = 15;

/// Who decodes.
const DECODING: [Engine; 4] = [Engine::Proved, Engine::Rust, Engine::Sweeps, Engine::Old];
/// Who decodes in the races of the register window.
const WINDOWED: [Engine; 2] = [Engine::Proved, Engine::ProvedWindow];

/// What a decoding leaves. A decoder without records leaves an empty store, one without margins none of them.
#[derive(Clone, Debug, Default)]
struct Decoded {
    status: u8,
    t: u8,
    symbols: Vec<u8>,
    costs: Vec<u16>,
    store: Vec<u8>,
    margins: Vec<u16>,
}

impl Decoded {
    /// Buffers for a code, without a store and margins.
    fn plain(code: &Code) -> Decoded {
        Decoded {
            symbols: vec![0; code.columns],
            costs: vec![0; code.frame_length()],
            ..Decoded::default()
        }
    }

    /// All buffers for a code.
    fn lent(code: &Code) -> Decoded {
        Decoded {
            store: vec![0; code.store_length(2)],
            margins: vec![0; code.columns],
            ..Decoded::plain(code)
        }
    }
}

/// Whether two are equal, or one is empty.
fn equal_if_present<T: PartialEq>(one: &[T], other: &[T]) -> bool {
    one == other || one.is_empty() || other.is_empty()
}

/// Everything is filled with A5 beforehand; answer, symbols, costs and, where both have them, the
/// store and the margins are compared.
const RULES: Rules<Decoded> = Rules {
    spoil: |decoded| {
        (decoded.status, decoded.t) = (0xA5, 0xA5);
        decoded.symbols.fill(0xA5);
        decoded.costs.fill(0xA5A5);
        decoded.store.fill(0xA5);
        decoded.margins.fill(0xA5A5);
    },
    agree: |one, other| {
        (one.status, one.t) == (other.status, other.t)
            && one.symbols == other.symbols
            && one.costs == other.costs
            && equal_if_present(&one.store, &other.store)
            && equal_if_present(&one.margins, &other.margins)
    },
    units: |decoded| usize::from(decoded.t),
};

/// The times for one code, each the seconds of one iteration: a call's time, with the reading of the
/// code line and the first test, by the iterations that it made.
pub struct Row<'a> {
    /// The code and its frames.
    pub job: &'a Job,
    /// The iterations of a frame on average.
    pub mean_iterations: f64,
    /// The decodings. The sweeps decode with plain messages.
    pub decode: Results,
}

impl Row<'_> {
    /// The proved library's seconds for a frame of mean iterations.
    pub fn of_frame(&self) -> f64 {
        self.decode.median(Engine::Proved) * self.mean_iterations
    }

    /// N times p bits a frame, by the proved library's time for it.
    pub fn bits_per_second(&self) -> f64 {
        self.job.code.coded_bits() as f64 / self.of_frame()
    }
}

/// Measures one code, with all its frames in each round.
pub fn measure(job: &Job, rounds: usize) -> Row<'_> {
    race_of(&Engine::present(DECODING), job, rounds)
}

/// Measures the register window on one code, in races of its own.
pub fn measure_window(job: &Job, rounds: usize) -> Row<'_> {
    race_of(&WINDOWED, job, rounds)
}

/// The times of these engines on one code.
fn race_of<'a>(engines: &[Engine], job: &'a Job, rounds: usize) -> Row<'a> {
    let line = job.code.line(2, Edition::Sum, SCALE, LIMIT);
    let contender = |&engine| (engine, contender(engine, job, &line));
    row(job, engines.iter().map(contender).collect(), &RULES, rounds)
}

/// The times of contenders on one code, whose units are iterations.
pub fn row<'a, O: Clone>(
    job: &'a Job,
    contenders: Vec<(Engine, Contender<'_, Vec<u8>, O>)>,
    rules: &Rules<O>,
    rounds: usize,
) -> Row<'a> {
    let (engines, mut contenders): (Vec<_>, Vec<_>) = contenders.into_iter().unzip();
    let mut decode = Results::default();
    for round in 0..rounds {
        let times = race(&mut contenders, round, rules);
        decode.append(&engines, times);
    }
    let outputs = contenders[0].outputs().iter();
    let iterations: usize = outputs.map(rules.units).sum();
    Row {
        job,
        mean_iterations: iterations as f64 / job.frame_count() as f64,
        decode,
    }
}

/// An engine on the frames of a code.
fn contender<'a>(engine: Engine, job: &'a Job, line: &'a [u8]) -> Contender<'a, Vec<u8>, Decoded> {
    let lent = Decoded::lent(&job.code);
    match engine {
        Engine::Proved => Contender::new(&job.frames, lent, decode_by(line, proved)),
        Engine::ProvedWindow => Contender::new(&job.frames, lent, through_window(line)),
        Engine::Sweeps => {
            let plain = Decoded::plain(&job.code);
            let mut layered = Layered::new(&job.code, SCALE, LIMIT, Sweeps::<false>::new(2));
            Contender::new(&job.frames, plain, move |frame, out| {
                let outcome = layered.decode(frame);
                (out.status, out.t) = (u8::from(!outcome.found), outcome.iterations);
                out.symbols.copy_from_slice(layered.symbols());
                out.costs.copy_from_slice(layered.costs());
            })
        }
        Engine::Old => {
            let old = foreign::old_library().expect("the old library is present");
            let kept = Decoded {
                margins: Vec::new(),
                ..lent
            };
            let mut margins = vec![0; job.code.columns];
            let mut decode = decode_by(line, old.decode);
            // It may have no margins, so it gets a buffer for them that is not compared.
            Contender::new(&job.frames, kept, move |frame, out| {
                std::mem::swap(&mut out.margins, &mut margins);
                decode(frame, out);
                std::mem::swap(&mut out.margins, &mut margins);
            })
        }
        _ => Contender::new(&job.frames, lent, decode_by(line, same::decode)),
    }
}

/// A decoding as a call on one frame.
fn decode_by<'a>(
    line: &'a [u8],
    decode: foreign::Decode,
) -> impl FnMut(&Vec<u8>, &mut Decoded) + 'a {
    move |frame, out| {
        let (symbols, costs) = (&mut out.symbols, &mut out.costs);
        let (store, margins) = (&mut out.store, &mut out.margins);
        let answer = decode(line, frame, symbols, costs, store, margins);
        (out.status, out.t) = answer.expect("an accepted frame");
    }
}

/// The proved library's decoding through the register window, as a board does it: a load, then commands 2 until
/// the interrupt is raised.
fn through_window(line: &[u8]) -> impl FnMut(&Vec<u8>, &mut Decoded) + '_ {
    move |frame, out| {
        let mut lent = Lent {
            code: line,
            frame,
            symbols: &mut out.symbols,
            costs: &mut out.costs,
            store: &mut out.store,
            margins: &mut out.margins,
        };
        let mut window = Window::IDLE;
        window.set_mask(RESULT_BIT | REFUSAL_BIT);
        window.load(lent.reborrow());
        while !window.interrupt() {
            window.iterate(lent.reborrow());
        }
        out.status = match window.state() {
            State::Found => 0,
            State::NotFound => 1,
            other => panic!("an accepted frame ends with {other:?}"),
        };
        out.t = window.iterations();
    }
}

/// The proved library's decoding, its refusals as numbers.
pub fn proved(
    line: &[u8],
    frame: &[u8],
    symbols: &mut [u8],
    costs: &mut [u16],
    store: &mut [u8],
    margins: &mut [u16],
) -> Result<(u8, u8), u8> {
    let outcome = petsivola::decode(line, frame, symbols, costs, store, margins);
    let outcome = outcome.map_err(|refusal| refusal.number() as u8)?;
    Ok((outcome.status(), outcome.iterations()))
}
