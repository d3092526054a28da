//! `encode` of the static library against the reference decoder, from a fixed seed, and against
//! `decode` of the same library. The comparison prints one line with its counts and fails when a class
//! of answers was never met.

mod entry_point;

use compare::ENCODE;
use petsivola::{decode, encode, Outcome};
use reference_decoder::sample::{self, Generator, Size};

#[test]
fn encodings() {
    entry_point::compare(&ENCODE);
}

/// A frame that costs 0 at the encoded symbols and above 0 elsewhere is found at t = 0 with these
/// symbols.
#[test]
fn what_is_encoded_is_found_at_the_start() {
    let mut generator = Generator::new(2);
    for round in 0..2_000 {
        let size = match round % 50 {
            0 => Size::FULL,
            1 => Size::MOST_CHECKS,
            2 => Size::MOST_DEGREE,
            3..20 => Size::MEDIUM,
            _ => Size::SMALL,
        };
        let code = sample::encodable_code(&mut generator, &size);
        let (line, message) = (code.line(), sample::message(&mut generator, &code));
        let mut word = generator.bytes(code.n);
        assert_eq!(encode(&line, &message, &mut word), Ok(code.n));
        let frame = sample::certain_frame(&mut generator, &code, &word);
        let mut symbols = generator.bytes(code.n);
        let mut costs = generator.numbers(code.frame_length());
        let mut store = generator.bytes(code.store_length());
        let mut margins = generator.numbers(code.n);
        let (before, lent) = (store.clone(), &mut costs);
        let outcome = decode(&line, &frame, &mut symbols, lent, &mut store, &mut margins);
        assert_eq!(outcome, Ok(Outcome::Found(0)));
        assert!(!margins.contains(&0));
        assert_eq!((symbols, store), (word, before));
        assert!(costs.into_iter().eq(frame.into_iter().map(u16::from)));
    }
}
