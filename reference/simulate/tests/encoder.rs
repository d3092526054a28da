//! Every word that the encoder makes satisfies every check.

mod common;

use reference_decoder::sample::{Generator, Size};
use simulate::array;
use simulate::encoder::Encoder;

#[test]
fn words_satisfy_every_check() {
    let code = array::code();
    let encoder = Encoder::new(&code);
    let mut generator = Generator::new(1);
    let mut words = Vec::new();
    for _ in 0..100 {
        let word = encoder.random_word(&mut generator);
        assert!(code.is_word(&word));
        assert!(word.iter().any(|&symbol| symbol != 0));
        words.push(word);
    }
    words.sort();
    words.dedup();
    assert_eq!(words.len(), 100);
}

#[test]
fn a_damaged_word_is_no_word() {
    let code = array::code();
    let mut generator = Generator::new(2);
    let mut word = Encoder::new(&code).random_word(&mut generator);
    for column in 0..code.columns {
        word[column] ^= 1;
        assert!(!code.is_word(&word));
        word[column] ^= 1;
    }
}

/// Codes of every p, with checks that depend on one another and columns in no check.
#[test]
fn words_of_random_codes() {
    let mut generator = Generator::new(3);
    for _ in 0..200 {
        let (_, _, code) = common::random_code(&mut generator, &Size::MEDIUM);
        let encoder = Encoder::new(&code);
        assert!(encoder.message_length() >= code.columns.saturating_sub(code.checks.len()));
        for place in 0..encoder.message_length() {
            let mut message = vec![0; encoder.message_length()];
            message[place] = 1;
            let word = encoder.encode(&message);
            assert!(code.is_word(&word) && word.iter().any(|&symbol| symbol != 0));
        }
    }
}
