//! `combine` of the static library against the reference decoder, from a fixed seed, and what the request says about
//! its result, by the library alone. The comparison prints one line with its counts and fails when a class of answers
//! was never met.

mod entry_point;

use compare::COMBINE;
use petsivola::{combine, decode, Outcome};
use reference_decoder::sample::{self, Generator, Size, Style};
use reference_decoder::{code_line, Code};

#[test]
fn two_frames_combined() {
    entry_point::compare(&COMBINE);
}

/// The frame that two give, in a buffer of arbitrary content.
fn combined(generator: &mut Generator, code: &Code, frames: [&[u8]; 2]) -> Vec<u8> {
    let [first, second] = frames;
    let mut out = generator.bytes(code.frame_length());
    let written = combine(&code.line(), first, second, &mut out);
    assert_eq!(written, Ok(out.len()));
    out
}

/// "The result is itself an accepted frame, the same in either order of the two." A frame is combined with itself from
/// one buffer, and one of zeros gives the other back.
#[test]
fn the_result_is_an_accepted_frame_in_either_order() {
    let mut generator = Generator::new(5);
    for round in 0..2_000 {
        let size = match round % 100 {
            0 => Size::MOST_CHECKS,
            1 => Size::MOST_DEGREE,
            2 => Size::FULL,
            3..30 => Size::MEDIUM,
            _ => Size::SMALL,
        };
        let sample = sample::code(&mut generator, &size);
        let code = code_line(&sample.line).expect("an accepted code line");
        let [first, second] = [0, 1].map(|_| {
            let style = generator.one_of(&Style::ALL);
            sample::frame(&mut generator, &code, style)
        });
        let both = combined(&mut generator, &code, [&first, &second]);
        assert_eq!(combined(&mut generator, &code, [&second, &first]), both);
        let mut columns = both.chunks_exact(code.field().size());
        assert!(columns.all(|column| column.contains(&0)));
        let again = combined(&mut generator, &code, [&both, &first]);
        assert_eq!(again.len(), both.len());
        let zeros = vec![0; first.len()];
        assert_eq!(combined(&mut generator, &code, [&first, &zeros]), first);
        let doubled = first.iter().map(|&cost| cost.saturating_mul(2));
        assert!(doubled.eq(combined(&mut generator, &code, [&first, &first])));
    }
}

/// Two frames whose decisions are one word: so are those of the combined frame, which is found at t = 0.
#[test]
fn a_word_that_both_decide_is_found_at_the_start() {
    let mut generator = Generator::new(6);
    for _ in 0..1_000 {
        let sample = sample::code(&mut generator, &Size::MEDIUM);
        let code = code_line(&sample.line).expect("an accepted code line");
        let [first, second] =
            [0, 1].map(|_| sample::certain_frame(&mut generator, &code, &sample.word));
        let both = combined(&mut generator, &code, [&first, &second]);
        let mut symbols = generator.bytes(code.n);
        let (mut costs, mut margins) = (generator.numbers(both.len()), generator.numbers(code.n));
        let (mut store, costs) = (generator.bytes(code.store_length()), &mut costs);
        let line = &sample.line;
        let outcome = decode(line, &both, &mut symbols, costs, &mut store, &mut margins);
        assert_eq!((outcome, symbols), (Ok(Outcome::Found(0)), sample.word));
    }
}
