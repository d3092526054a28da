//! Several decoders on the same frames at one noise.

use petsivola::Edition;
use reference_decoder::sample::Generator;

use crate::channel::Channel;
use crate::code::Code;
use crate::decoder::Decoder;
use crate::encoder::Encoder;
use crate::layered::Layered;
use crate::library::Library;
use crate::min_max::MinMax;
use crate::progress::Progress;
use crate::quantiser::Quantiser;
use crate::tally::Tally;

/// The rule for one check.
#[derive(Clone, Copy, Debug, PartialEq, Eq)]
pub enum Rule {
    /// The documents' rule with this k, 2 or 3, in this edition, by the proved library.
    Proved(usize, Edition),
    /// The Trellis Min-Max rule of source document 003, which approximates the Min-Max edition.
    TrellisMinMax,
}

/// A decoder under test.
#[derive(Clone, Copy, Debug, PartialEq)]
pub struct Setup {
    /// Its rule.
    pub rule: Rule,
    /// g: what a check sends is scaled by g/16.
    pub g: u8,
    /// The quantiser's scale.
    pub costs_per_nat: f64,
}

/// A code with its encoder and the iteration limit of every decoder.
pub struct Scene {
    /// The code.
    pub code: Code,
    /// Its encoder.
    pub encoder: Encoder,
    /// I.
    pub limit: u8,
}

/// When a trial ends: as soon as every decoder has made so many frame errors, or after so many
/// frames.
#[derive(Clone, Copy, Debug, PartialEq, Eq)]
pub struct Stop {
    /// Frame errors of each decoder.
    pub errors: usize,
    /// Frames.
    pub frames: usize,
}

/// The counts of one decoder at one Eb/N0.
#[derive(Clone, Copy, Debug, PartialEq)]
pub struct Count {
    /// The Eb/N0 in decibels.
    pub decibels: f64,
    /// The decoder.
    pub setup: Setup,
    /// What was counted.
    pub tally: Tally,
}

impl Scene {
    /// A scene with this code.
    pub fn new(code: Code, limit: u8) -> Scene {
        Scene {
            encoder: Encoder::new(&code),
            code,
            limit,
        }
    }

    /// Sends random words at an Eb/N0 and lets every decoder decode each of them. The frames depend
    /// on the seed only.
    pub fn trial(
        &self,
        decibels: f64,
        setups: &[Setup],
        stop: Stop,
        seed: u64,
        progress: &mut Progress,
    ) -> Vec<Count> {
        let p = self.code.p();
        let channel = Channel::new(decibels, self.encoder.rate());
        let mut generator = Generator::new(seed);
        let mut decoders: Vec<Box<dyn Decoder + '_>> =
            setups.iter().map(|&setup| self.decoder(setup)).collect();
        let mut tallies = vec![Tally::default(); setups.len()];
        for frame in 0..stop.frames {
            if tallies
                .iter()
                .all(|tally| tally.frame_errors() >= stop.errors)
            {
                break;
            }
            progress.show(decibels, frame, stop, &tallies);
            let word = self.encoder.random_word(&mut generator);
            let received = channel.send(&mut generator, p, word);
            for ((decoder, setup), tally) in decoders.iter_mut().zip(setups).zip(&mut tallies) {
                let quantiser = Quantiser {
                    costs_per_nat: setup.costs_per_nat,
                };
                let outcome = decoder.decode(&quantiser.frame(p, &received.ratios));
                tally.count(outcome, &received.word, decoder.symbols());
            }
        }
        let counts = setups.iter().zip(tallies);
        counts
            .map(|(&setup, tally)| Count {
                decibels,
                setup,
                tally,
            })
            .collect()
    }

    /// The decoder of a setup.
    fn decoder(&self, setup: Setup) -> Box<dyn Decoder + '_> {
        match setup.rule {
            Rule::Proved(k, edition) => {
                Box::new(Library::new(&self.code, k, edition, setup.g, self.limit))
            }
            Rule::TrellisMinMax => Box::new(Layered::new(&self.code, setup.g, self.limit, MinMax)),
        }
    }
}
