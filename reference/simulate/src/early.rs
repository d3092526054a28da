//! Stopping inside an iteration, beside whole ones. Document 02, §13: "Battery receivers should stop as soon as the
//! decisions satisfy all checks, tested at the start and after each check update."

use petsivola::Stopped;
use reference_decoder::sample::Generator;

use crate::channel::Channel;
use crate::decoder::{Decoder, Outcome};
use crate::library::Library;
use crate::progress::Progress;
use crate::quantiser::Quantiser;
use crate::share::Share;
use crate::tally::Tally;
use crate::trial::{Rule, Scene, Setup, Stop};

/// The check updates that some frames take in both calls.
#[derive(Clone, Copy, Debug, Default, PartialEq, Eq)]
pub struct Updates {
    /// The frames.
    pub frames: usize,
    /// The updates of `decode` as its symbols, and as its errors those of them that `decode_early` does not make.
    share: Share,
}

impl Updates {
    /// Counts the updates that `decode` and `decode_early` made on one frame.
    ///
    /// # Panics
    ///
    /// When the latter are more: "It never makes more updates than M times the t of the ordinary call on the same
    /// input."
    pub fn count(&mut self, decode: usize, early: usize) {
        let saved = decode.checked_sub(early);
        self.frames += 1;
        self.share
            .count(decode, saved.expect("no more updates than `decode`"));
    }

    /// All updates of `decode`.
    pub fn of_decode(&self) -> usize {
        self.share.symbols
    }

    /// All updates of `decode_early`.
    pub fn of_early(&self) -> usize {
        self.share.symbols - self.share.errors
    }

    /// The part that is saved, with the interval that follows the spread between the frames; none without updates.
    pub fn saved(&self) -> Option<(f64, (f64, f64))> {
        self.share.rate().zip(self.share.interval())
    }
}

/// What was counted at one Eb/N0, by both calls on the same frames.
#[derive(Clone, Copy, Debug, PartialEq)]
pub struct Early {
    /// The Eb/N0 in decibels.
    pub decibels: f64,
    /// The decoder.
    pub setup: Setup,
    /// M, the updates of an iteration.
    pub checks: usize,
    /// The frames by `decode`.
    pub decode: Tally,
    /// The frames by `decode_early`; an iteration in which it stops is one of its iterations.
    pub early: Tally,
    /// The frames that `decode_early` finds and `decode` does not.
    pub early_alone: usize,
    /// The frames that `decode` finds and `decode_early` does not.
    pub decode_alone: usize,
    /// The frames that both find, as different words.
    pub differing: usize,
    /// The updates of all frames.
    pub all: Updates,
    /// The updates of frames that both find.
    pub found: Updates,
}

impl Early {
    /// Nothing counted yet, under a code with so many checks.
    pub fn new(decibels: f64, setup: Setup, checks: usize) -> Early {
        Early {
            decibels,
            setup,
            checks,
            decode: Tally::default(),
            early: Tally::default(),
            early_alone: 0,
            decode_alone: 0,
            differing: 0,
            all: Updates::default(),
            found: Updates::default(),
        }
    }

    /// Counts a frame: the word sent, and how `decode` and `decode_early` ended, with their symbols.
    pub fn count(
        &mut self,
        sent: &[u8],
        (outcome, symbols): (Outcome, &[u8]),
        (stopped, early_symbols): (Stopped, &[u8]),
    ) {
        let updates = usize::from(stopped.updates());
        let early = Outcome {
            found: stopped.status() == 0,
            iterations: updates.div_ceil(self.checks) as u8,
        };
        self.decode.count(outcome, sent, symbols);
        self.early.count(early, sent, early_symbols);
        let of_decode = self.checks * usize::from(outcome.iterations);
        self.all.count(of_decode, updates);
        match (outcome.found, early.found) {
            (true, true) => {
                self.found.count(of_decode, updates);
                self.differing += usize::from(symbols != early_symbols);
            }
            (true, false) => self.decode_alone += 1,
            (false, true) => self.early_alone += 1,
            (false, false) => (),
        }
    }
}

/// Sends random words at an Eb/N0 and lets both calls of the proved library decode them. The frames depend on the seed
/// only.
pub fn run(
    scene: &Scene,
    setup: Setup,
    (decibels, stop): (f64, Stop),
    seed: u64,
    progress: &mut Progress,
) -> Early {
    let Rule::Proved(k, edition) = setup.rule else {
        panic!("the proved library alone stops inside an iteration");
    };
    let p = scene.code.p();
    let channel = Channel::new(decibels, scene.encoder.rate());
    let quantiser = Quantiser {
        costs_per_nat: setup.costs_per_nat,
    };
    let mut decoder = Library::new(&scene.code, k, edition, setup.g, scene.limit);
    let mut generator = Generator::new(seed);
    let mut early = Early::new(decibels, setup, scene.code.checks.len());
    for frame in 0..stop.frames {
        let tallies = [early.decode, early.early];
        let mut errors = tallies.iter().map(Tally::frame_errors);
        if errors.all(|errors| errors >= stop.errors) {
            break;
        }
        progress.show(decibels, frame, stop, &tallies);
        let word = scene.encoder.random_word(&mut generator);
        let received = channel.send(&mut generator, p, word);
        let frame = quantiser.frame(p, &received.ratios);
        let outcome = decoder.decode(&frame);
        let symbols = decoder.symbols().to_vec();
        let stopped = decoder.decode_early(&frame);
        let stopped = (stopped, decoder.symbols());
        early.count(&received.word, (outcome, &symbols), stopped);
    }
    early
}
