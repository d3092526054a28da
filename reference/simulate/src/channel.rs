//! The channel: BPSK over white noise. Bit 0 is sent as +1 and bit 1 as -1; the noise is Gaussian.
//! Floating point stays here and in the quantiser.

use reference_decoder::sample::Generator;

/// White noise of one strength.
#[derive(Clone, Copy, Debug)]
pub struct Channel {
    /// The variance of the noise.
    variance: f64,
}

/// One frame on its way: the word sent, and what the channel says about its bits.
#[derive(Clone, Debug)]
pub struct Received {
    /// The symbols sent.
    pub word: Vec<u8>,
    /// For each bit, p a symbol and lowest first, the logarithm of how much likelier 0 is than 1, in
    /// nats.
    pub ratios: Vec<f64>,
}

impl Channel {
    /// The channel at an Eb/N0 in decibels for a code of this rate: an information bit has the energy
    /// 1/rate, and the noise on each coded bit the variance N0/2.
    pub fn new(decibels: f64, rate: f64) -> Channel {
        Channel {
            variance: 1.0 / (2.0 * rate * 10f64.powf(decibels / 10.0)),
        }
    }

    /// Sends a word of symbols of p bits.
    pub fn send(&self, generator: &mut Generator, p: u8, word: Vec<u8>) -> Received {
        let deviation = self.variance.sqrt();
        let bits = word
            .iter()
            .flat_map(|&symbol| (0..p).map(move |bit| (symbol >> bit) & 1));
        let ratios = bits
            .map(|bit| {
                let sent = if bit == 0 { 1.0 } else { -1.0 };
                let received = sent + deviation * gaussian(generator);
                2.0 * received / self.variance
            })
            .collect();
        Received { word, ratios }
    }
}

/// A Gaussian number of mean 0 and variance 1, by the method of Box and Muller.
fn gaussian(generator: &mut Generator) -> f64 {
    // The first is never 0, so that its logarithm exists.
    let radius = (-2.0 * (1.0 - uniform(generator)).ln()).sqrt();
    let angle = std::f64::consts::TAU * uniform(generator);
    radius * angle.cos()
}

/// A number from 0 to below 1, in steps of 2^-53.
fn uniform(generator: &mut Generator) -> f64 {
    (generator.bits() >> 11) as f64 / (1u64 << 53) as f64
}
