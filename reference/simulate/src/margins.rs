//! What a margin is worth: how often a decided symbol is wrong, by its margin. Document 02, §6: "The picker
//! wants to shade weak samples."

use std::ops::RangeInclusive;

use reference_decoder::sample::Generator;

use crate::channel::Channel;
use crate::decoder::Decoder;
use crate::library::Library;
use crate::progress::Progress;
use crate::quantiser::Quantiser;
use crate::share::Share;
use crate::tally::Tally;
use crate::trial::{Rule, Scene, Setup, Stop};

/// The classes of margins, rising from 0 to 510.
pub const CLASSES: [RangeInclusive<u16>; 13] = [
    0..=0,
    1..=2,
    3..=5,
    6..=10,
    11..=15,
    16..=20,
    21..=30,
    31..=40,
    41..=50,
    51..=60,
    61..=80,
    81..=160,
    161..=510,
];

/// The decided symbols of each class.
pub type Shares = [Share; CLASSES.len()];

/// What was counted at one Eb/N0.
#[derive(Clone, Debug, PartialEq)]
pub struct Worth {
    /// The Eb/N0 in decibels.
    pub decibels: f64,
    /// The decoder.
    pub setup: Setup,
    /// The frames.
    pub tally: Tally,
    /// The symbols of frames not found.
    pub not_found: Shares,
    /// The symbols of all frames.
    pub all: Shares,
}

impl Worth {
    /// Nothing counted yet.
    pub fn new(decibels: f64, setup: Setup) -> Worth {
        Worth {
            decibels,
            setup,
            tally: Tally::default(),
            not_found: Shares::default(),
            all: Shares::default(),
        }
    }

    /// Counts the symbols of one frame: those sent, and those decided with their margins.
    pub fn count(&mut self, found: bool, sent: &[u8], decided: &[u8], margins: &[u16]) {
        let mut counts = [(0, 0); CLASSES.len()];
        for ((sent, decided), margin) in sent.iter().zip(decided).zip(margins) {
            let (symbols, errors) = &mut counts[class(*margin)];
            *symbols += 1;
            *errors += usize::from(sent != decided);
        }
        for (class, (symbols, errors)) in counts.into_iter().enumerate() {
            self.all[class].count(symbols, errors);
            if !found {
                self.not_found[class].count(symbols, errors);
            }
        }
    }
}

/// The place of a margin's class.
fn class(margin: u16) -> usize {
    let place = CLASSES.iter().position(|class| class.contains(&margin));
    place.expect("a margin is at most 510")
}

/// Sends random words at an Eb/N0 and counts the symbols that a proved decoder decides. The frames depend on
/// the seed only.
pub fn run(
    scene: &Scene,
    setup: Setup,
    (decibels, stop): (f64, Stop),
    seed: u64,
    progress: &mut Progress,
) -> Worth {
    let Rule::Proved(k, edition) = setup.rule else {
        panic!("the proved library alone has margins");
    };
    let mut decoder = Library::new(&scene.code, k, edition, setup.g, scene.limit);
    let (p, mut generator) = (scene.code.p(), Generator::new(seed));
    let channel = Channel::new(decibels, scene.encoder.rate());
    let quantiser = Quantiser {
        costs_per_nat: setup.costs_per_nat,
    };
    let mut worth = Worth::new(decibels, setup);
    while worth.tally.frames < stop.frames && worth.tally.frame_errors() < stop.errors {
        progress.show(decibels, worth.tally.frames, stop, &[worth.tally]);
        let word = scene.encoder.random_word(&mut generator);
        let received = channel.send(&mut generator, p, word);
        let outcome = decoder.decode(&quantiser.frame(p, &received.ratios));
        let (sent, decided) = (&received.word, decoder.symbols());
        worth.tally.count(outcome, sent, decided);
        worth.count(outcome.found, sent, decided, decoder.margins());
    }
    worth
}
