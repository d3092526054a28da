//! The times of eight channels with an allowance that is enough, beside eight times `decode`.

use petsivola::channels::answer;
use petsivola::lengths::MOST_CHANNELS;
use petsivola::{Edition, Lent};
use simulate::code::Code;

use crate::decoding::{self, Row, LIMIT, SCALE};
use crate::engines::Engine;
use crate::inputs::Job;
use crate::timing::{Contender, Rules};

/// The allowance: every channel may make every iteration.
const ALLOWANCE: u32 = MOST_CHANNELS as u32 * LIMIT as u32;

/// What eight decodings leave.
#[derive(Clone, Debug, PartialEq)]
struct Decoded {
    status: [u8; MOST_CHANNELS],
    iterations: [u8; MOST_CHANNELS],
    symbols: Vec<u8>,
    costs: Vec<u16>,
    store: Vec<u8>,
    margins: Vec<u16>,
}

impl Decoded {
    /// The buffers for eight channels.
    fn lent(code: &Code) -> Decoded {
        Decoded {
            status: [0; MOST_CHANNELS],
            iterations: [0; MOST_CHANNELS],
            symbols: vec![0; MOST_CHANNELS * code.columns],
            costs: vec![0; MOST_CHANNELS * code.frame_length()],
            store: vec![0; MOST_CHANNELS * code.store_length(2)],
            margins: vec![0; MOST_CHANNELS * code.columns],
        }
    }
}

/// Everything is filled with A5 beforehand and compared whole.
const RULES: Rules<Decoded> = Rules {
    spoil: |decoded| {
        decoded.status.fill(0xA5);
        decoded.iterations.fill(0xA5);
        decoded.symbols.fill(0xA5);
        decoded.costs.fill(0xA5A5);
        decoded.store.fill(0xA5);
        decoded.margins.fill(0xA5A5);
    },
    agree: |one, other| one == other,
    units: |decoded| decoded.iterations.into_iter().map(usize::from).sum(),
};

/// Measures one code, whose calls have eight frames each.
pub fn measure(job: &Job, rounds: usize) -> Row<'_> {
    let line = job.code.line(2, Edition::Sum, SCALE, LIMIT);
    let lent = Decoded::lent(&job.code);
    let eight = Contender::new(&job.frames, lent.clone(), decode_eight(&job.code, &line));
    let channels = Contender::new(&job.frames, lent, in_channels(&line));
    let contenders = vec![(Engine::Proved, eight), (Engine::ProvedChannels, channels)];
    decoding::row(job, contenders, &RULES, rounds)
}

/// Eight frames, one after another.
fn decode_eight<'a>(code: &Code, line: &'a [u8]) -> impl FnMut(&Vec<u8>, &mut Decoded) + 'a {
    let (n, costs, store) = (code.columns, code.frame_length(), code.store_length(2));
    move |frames, out| {
        for (channel, frame) in frames.chunks_exact(costs).enumerate() {
            let decoded = decoding::proved(
                line,
                frame,
                &mut out.symbols[channel * n..][..n],
                &mut out.costs[channel * costs..][..costs],
                &mut out.store[channel * store..][..store],
                &mut out.margins[channel * n..][..n],
            );
            let decoded = decoded.expect("an accepted frame");
            (out.status[channel], out.iterations[channel]) = decoded;
        }
    }
}

/// The same in one call.
fn in_channels(line: &[u8]) -> impl FnMut(&Vec<u8>, &mut Decoded) + '_ {
    move |frames, out| {
        let lent = Lent {
            code: line,
            frame: frames,
            symbols: &mut out.symbols,
            costs: &mut out.costs,
            store: &mut out.store,
            margins: &mut out.margins,
        };
        let answer = answer(MOST_CHANNELS as u8, ALLOWANCE, lent);
        assert_eq!(answer.number, 0, "accepted frames");
        (out.status, out.iterations) = (answer.status, answer.iterations);
    }
}
