//! `channels` of the static library against the reference decoder, from a fixed seed, and against `decode` of the same
//! library. The comparison prints one line with its counts and fails when a class of answers was never met.

mod entry_point;

use compare::CHANNELS;
use petsivola::{channels, decode, Channel, Lent, Outcome, Window};
use reference_decoder::sample::{self, Buffers, Generator, Size, Style};
use reference_decoder::{code_line, Code};

#[test]
fn several_channels() {
    entry_point::compare(&CHANNELS);
}

/// A code line of the size with its code, and frames near a word of it.
fn station(generator: &mut Generator, size: &Size) -> (Vec<u8>, Code, Vec<Vec<u8>>) {
    let sample = sample::code(generator, size);
    let code = code_line(&sample.line).expect("an accepted code line");
    let frame = |_| {
        let style = generator.one_of(&Style::ALL);
        let wrong = generator.between(0..=code.n / 2);
        sample::noisy_frame(generator, &code, &sample.word, wrong, style)
    };
    let count = 1 + sample.line.len() % 8;
    let frames = (0..count).map(frame).collect();
    (sample.line, code, frames)
}

/// The library's view of one channel's parts of buffers, or with channel 0 of a whole.
fn lend<'a>(
    code: &'a [u8],
    frame: &'a [u8],
    buffers: &'a mut Buffers,
    (channel, one): (usize, [usize; 4]),
) -> Lent<'a> {
    let [symbols, costs, store, margins] = one;
    Lent {
        code,
        frame,
        symbols: &mut buffers.symbols[channel * symbols..][..symbols],
        costs: &mut buffers.costs[channel * costs..][..costs],
        store: &mut buffers.store[channel * store..][..store],
        margins: &mut buffers.margins[channel * margins..][..margins],
    }
}

/// Decodes one channel alone with iteration limit j, with j = 0 up to the first test, and answers whether it is found.
fn found_alone(line: &[u8], j: u8, lent: Lent) -> bool {
    if j == 0 {
        let mut window = Window::IDLE;
        window.load(lent);
        return window.state() == petsivola::State::Found;
    }
    let mut line = line.to_vec();
    line[5] = j;
    let (symbols, costs) = (lent.symbols, lent.costs);
    let outcome = decode(&line, lent.frame, symbols, costs, lent.store, lent.margins);
    let outcome = outcome.expect("an accepted frame");
    assert_eq!(outcome.iterations(), j);
    matches!(outcome, Outcome::Found(_))
}

/// "What a channel not refused receives after j iterations is, but for a spent one's status, what decoding it alone
/// with iteration limit j gives": by the library alone, on codes of every size.
#[test]
fn a_channel_receives_what_decoding_it_alone_gives() {
    let mut generator = Generator::new(4);
    for round in 0..1_000 {
        let size = match round % 100 {
            0 => Size::MOST_CHECKS,
            1 => Size::MOST_DEGREE,
            2 => Size::FULL,
            3..30 => Size::MEDIUM,
            _ => Size::SMALL,
        };
        let (line, code, frames) = station(&mut generator, &size);
        let (count, one) = (frames.len(), code.lengths());
        let whole = one.map(|one| count * one);
        let mut buffers = Buffers::arbitrary(&mut generator, whole);
        let mut alone = buffers.clone();
        let allowance = 1 + generator.below(count * usize::from(code.limit.min(9)));
        let joined = frames.concat();
        let lent = lend(&line, &joined, &mut buffers, (0, whole));
        let served = channels(count as u8, allowance as u32, lent).expect("an accepted call");
        for (channel, ended) in served.channels().enumerate() {
            let j = ended.iterations();
            let lent = lend(&line, &frames[channel], &mut alone, (channel, one));
            let expected = match found_alone(&line, j, lent) {
                true => Channel::Found(j),
                false if j == code.limit => Channel::NotFound(j),
                false => Channel::Spent(j),
            };
            assert_eq!(ended, expected);
        }
        assert_eq!(buffers, alone);
    }
}
