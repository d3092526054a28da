//! One allowance of iterations for eight channels, beside a limit for each frame. Document 02, §9: "The base station
//! decodes up to eight frames under one code line with one allowance A of iterations for all."

use petsivola::lengths::MOST_CHANNELS;
use reference_decoder::sample::Generator;

use crate::channel::{Channel, Received};
use crate::decoder::{Decoder, Outcome};
use crate::library::{Channels, Library};
use crate::progress::Progress;
use crate::quantiser::Quantiser;
use crate::share::Share;
use crate::tally::Tally;
use crate::trial::{Rule, Scene, Setup, Stop};

/// L: the iteration limit of a frame that is decoded alone. Eight channels share eight times as many. The last is the
/// iteration limit of the simulation, so there both are the same.
pub const LIMITS: [u8; 7] = [3, 4, 5, 6, 8, 10, 15];

/// How a decoding ended, with its symbols.
pub type Decoded = (Outcome, Vec<u8>);

/// The frames of one way to spend the iterations.
#[derive(Clone, Copy, Debug, Default, PartialEq, Eq)]
pub struct Way {
    /// The frames one by one.
    pub tally: Tally,
    /// The frames by eight, of which several may be lost when an allowance is spent.
    pub by_eight: Share,
}

/// Both ways with one L.
#[derive(Clone, Copy, Debug, PartialEq, Eq)]
pub struct Pair {
    /// L.
    pub limit: u8,
    /// Each frame has L iterations of its own.
    pub alone: Way,
    /// Eight channels share 8 L iterations, and each has the code line's limit.
    pub shared: Way,
}

/// What was counted at one Eb/N0.
#[derive(Clone, Debug, PartialEq)]
pub struct Sharing {
    /// The Eb/N0 in decibels.
    pub decibels: f64,
    /// The decoder.
    pub setup: Setup,
    /// Both ways with each L, on the same frames.
    pub pairs: [Pair; LIMITS.len()],
}

impl Way {
    /// Counts the frames of one call, or as many that are decoded alone.
    pub fn count(&mut self, sent: &[Received], decoded: &[Decoded]) {
        let before = self.tally.frame_errors();
        for (sent, (outcome, symbols)) in sent.iter().zip(decoded) {
            self.tally.count(*outcome, &sent.word, symbols);
        }
        let errors = self.tally.frame_errors() - before;
        self.by_eight.count(sent.len(), errors);
    }

    /// The interval of the frame error rate, which follows the spread between calls; none without frames.
    pub fn interval(&self) -> Option<(f64, f64)> {
        self.by_eight.interval()
    }
}

impl Sharing {
    /// Nothing counted yet.
    pub fn new(decibels: f64, setup: Setup) -> Sharing {
        let pair = |limit| Pair {
            limit,
            alone: Way::default(),
            shared: Way::default(),
        };
        Sharing {
            decibels,
            setup,
            pairs: LIMITS.map(pair),
        }
    }

    /// Both ways with each L, one after the other.
    fn tallies(&self) -> Vec<Tally> {
        let pairs = self.pairs.iter();
        pairs
            .flat_map(|pair| [pair.alone.tally, pair.shared.tally])
            .collect()
    }
}

/// Sends random words at an Eb/N0, eight at a time, and lets the proved library decode them both ways with each L. The
/// frames depend on the seed only.
pub fn run(
    scene: &Scene,
    setup: Setup,
    (decibels, stop): (f64, Stop),
    seed: u64,
    progress: &mut Progress,
) -> Sharing {
    let Rule::Proved(k, edition) = setup.rule else {
        panic!("the proved library alone has channels");
    };
    let code = &scene.code;
    let mut channels = Channels::new(code, k, edition, setup.g, scene.limit);
    let mut singles = LIMITS.map(|limit| Library::new(code, k, edition, setup.g, limit));
    let mut generator = Generator::new(seed);
    let mut sharing = Sharing::new(decibels, setup);
    for frame in (0..stop.frames).step_by(MOST_CHANNELS) {
        let tallies = sharing.tallies();
        let mut errors = tallies.iter().map(Tally::frame_errors);
        if errors.all(|errors| errors >= stop.errors) {
            break;
        }
        progress.show(decibels, frame, stop, &tallies);
        let (sent, frames) = eight_frames(scene, setup, decibels, &mut generator);
        for (pair, single) in sharing.pairs.iter_mut().zip(&mut singles) {
            let allowance = MOST_CHANNELS as u32 * u32::from(pair.limit);
            let shared = channels.decode(&frames.concat(), allowance);
            pair.shared.count(&sent, &shared);
            let alone = |frame: &Vec<u8>| (single.decode(frame), single.symbols().to_vec());
            let alone: Vec<Decoded> = frames.iter().map(alone).collect();
            pair.alone.count(&sent, &alone);
        }
    }
    sharing
}

/// Eight random words on their way, and their frames.
fn eight_frames(
    scene: &Scene,
    setup: Setup,
    decibels: f64,
    generator: &mut Generator,
) -> (Vec<Received>, Vec<Vec<u8>>) {
    let p = scene.code.p();
    let channel = Channel::new(decibels, scene.encoder.rate());
    let quantiser = Quantiser {
        costs_per_nat: setup.costs_per_nat,
    };
    let send = |_| {
        let word = scene.encoder.random_word(generator);
        let received = channel.send(generator, p, word);
        let frame = quantiser.frame(p, &received.ratios);
        (received, frame)
    };
    (0..MOST_CHANNELS).map(send).unzip()
}
