//! Writes the noisy frames of `examples/` at the repository's root, from a fixed seed:
//!
//!     cargo run --manifest-path reference/Cargo.toml --release --offline -p simulate --example frames
//!
//! Beside the input of the program stand the words that were sent, and what the program has to print,
//! by the reference decoder. A summary of each frame goes to standard output.

use std::path::Path;
use std::{fs, io};

use petsivola::Edition;
use reference_decoder::line::hexadecimal;
use reference_decoder::sample::Generator;
use simulate::array;
use simulate::channel::Channel;
use simulate::encoder::Encoder;
use simulate::plan::{COSTS_PER_NAT, LIMIT};
use simulate::quantiser::Quantiser;

/// The files, without what follows the dot.
const FILES: &str = concat!(env!("CARGO_MANIFEST_DIR"), "/../../examples/gf32-248-137");
/// g, the best one of the simulation.
const SCALE: u8 = 8;
/// How many frames.
const FRAMES: usize = 12;
/// The Eb/N0.
const DECIBELS: f64 = 2.5;
/// With this one, one of the frames is not corrected.
const SEED: u64 = 1;

fn main() -> io::Result<()> {
    let code = array::code();
    let encoder = Encoder::new(&code);
    let channel = Channel::new(DECIBELS, encoder.rate());
    let quantiser = Quantiser {
        costs_per_nat: COSTS_PER_NAT,
    };
    let mut generator = Generator::new(SEED);
    let mut input = text(&code.line(2, Edition::Sum, SCALE, LIMIT));
    let mut sent = Vec::new();
    for _ in 0..FRAMES {
        let word = encoder.random_word(&mut generator);
        let received = channel.send(&mut generator, code.p(), word);
        input.extend(text(&quantiser.frame(code.p(), &received.ratios)));
        sent.extend(text(&received.word));
    }
    let printed = reference_decoder::program(&input);
    summarise(&printed, &sent);
    let write = |end, text| fs::write(Path::new(FILES).with_extension(end), text);
    write("hex", input)?;
    write("sent", sent)?;
    write("out", printed)
}

/// A line of bytes as the program reads and prints them.
fn text(bytes: &[u8]) -> Vec<u8> {
    let mut text = hexadecimal(bytes);
    text.push(b'\n');
    text
}

/// Prints how each frame ends: "status, t, then the symbols".
fn summarise(printed: &[u8], sent: &[u8]) {
    let [printed, sent] = [printed, sent].map(String::from_utf8_lossy);
    for (number, (printed, sent)) in printed.lines().zip(sent.lines()).enumerate() {
        let (status, rest) = printed.split_at(2);
        let (t, symbols) = rest.split_at(2);
        let equal = if symbols == sent { "equal" } else { "differ" };
        println!("frame {number}: status {status}, t {t}, symbols {equal}");
    }
}
