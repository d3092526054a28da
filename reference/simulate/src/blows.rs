//! Two blows for one word. Document 02, §10: "Crews strike twice and the box sends the same symbols again."

use reference_decoder::sample::Generator;

use crate::channel::Channel;
use crate::decoder::{Decoder, Outcome};
use crate::library::Library;
use crate::progress::Progress;
use crate::quantiser::Quantiser;
use crate::tally::Tally;
use crate::trial::{Rule, Scene, Setup, Stop};

/// What was counted at one Eb/N0, in three ways on the same noise.
#[derive(Clone, Copy, Debug, PartialEq)]
pub struct Blows {
    /// The Eb/N0 of each blow in decibels.
    pub decibels: f64,
    /// The decoder.
    pub setup: Setup,
    /// The first blow alone.
    pub one: Tally,
    /// The first blow, and where it is not found the second, each decoded alone.
    pub either: Tally,
    /// Both blows combined into one frame.
    pub combined: Tally,
}

impl Blows {
    /// Nothing counted yet.
    pub fn new(decibels: f64, setup: Setup) -> Blows {
        Blows {
            decibels,
            setup,
            one: Tally::default(),
            either: Tally::default(),
            combined: Tally::default(),
        }
    }

    /// The three ways.
    pub fn tallies(&self) -> [Tally; 3] {
        [self.one, self.either, self.combined]
    }

    /// Decodes the frames of two blows in the three ways, and counts them. The iterations of the second way are those
    /// of both decodings.
    fn count(&mut self, decoder: &mut Library, word: &[u8], [first, second]: [&[u8]; 2]) {
        let one = decoder.decode(first);
        self.one.count(one, word, decoder.symbols());
        let either = match one.found {
            true => one,
            false => one.then(decoder.decode(second)),
        };
        // The decoder's symbols are those of the blow that was decoded last.
        self.either.count(either, word, decoder.symbols());
        let frame = decoder.combine(first, second);
        let combined = decoder.decode(&frame);
        self.combined.count(combined, word, decoder.symbols());
    }
}

impl Outcome {
    /// What a decoding gives that is made because this one found nothing.
    fn then(self, other: Outcome) -> Outcome {
        Outcome {
            found: other.found,
            iterations: self.iterations + other.iterations,
        }
    }
}

/// Sends random words twice at an Eb/N0 and lets the proved library decode them in the three ways. The frames depend
/// on the seed only.
pub fn run(
    scene: &Scene,
    setup: Setup,
    (decibels, stop): (f64, Stop),
    seed: u64,
    progress: &mut Progress,
) -> Blows {
    let Rule::Proved(k, edition) = setup.rule else {
        panic!("the proved library alone combines frames");
    };
    let p = scene.code.p();
    let channel = Channel::new(decibels, scene.encoder.rate());
    let quantiser = Quantiser {
        costs_per_nat: setup.costs_per_nat,
    };
    let mut decoder = Library::new(&scene.code, k, edition, setup.g, scene.limit);
    let mut generator = Generator::new(seed);
    let mut blows = Blows::new(decibels, setup);
    for frame in 0..stop.frames {
        let tallies = blows.tallies();
        let mut errors = tallies.iter().map(Tally::frame_errors);
        if errors.all(|errors| errors >= stop.errors) {
            break;
        }
        progress.show(decibels, frame, stop, &tallies);
        let word = scene.encoder.random_word(&mut generator);
        let [first, second] = [(); 2].map(|()| {
            let received = channel.send(&mut generator, p, word.clone());
            quantiser.frame(p, &received.ratios)
        });
        blows.count(&mut decoder, &word, [&first, &second]);
    }
    blows
}
