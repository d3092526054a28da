//! Document 02, §2: "Encoding in the box."

use reference_decoder::encode::has_encoding_form;
use reference_decoder::field::sum;
use reference_decoder::sample::{self, bytes, Buffers, Generator, Miss, Size};
use reference_decoder::{code_line, encode, Code, Outcome};

/// p = 2, N = 5, M = 2, g = 16, I = 1: check 0 on columns 0, 1, 3 with weights 1, 2, 3, and check 1
/// on columns 1, 2, 3, 4 with weights 1, 1, 1, 2.
const CODE: &str = "020005021001 03 000001 000102 000303 04 000101 000201 000301 000402";

/// The word of a message, in a buffer of N bytes.
fn encoded(code: &Code, message: &[u8]) -> Vec<u8> {
    let mut symbols = vec![0xA5; code.n];
    assert_eq!(encode(&code.line(), message, &mut symbols), Ok(code.n));
    symbols
}

/// The refusal of an encoding in a buffer of this length and arbitrary content, which has not
/// changed.
fn refused(code: &[u8], message: &[u8], length: usize) -> u8 {
    let before = Generator::new(60).bytes(length);
    let mut symbols = before.clone();
    let answer = encode(code, message, &mut symbols);
    assert_eq!(symbols, before);
    answer.expect_err("a refusal").number()
}

/// The code line above with bytes replaced from a place on.
fn with(place: usize, replacement: &str) -> Vec<u8> {
    let mut line = bytes(CODE);
    let replacement = bytes(replacement);
    line[place..place + replacement.len()].copy_from_slice(&replacement);
    line
}

/// The weighted sum of each check.
fn syndromes<'a>(code: &'a Code, word: &'a [u8]) -> impl Iterator<Item = u8> + 'a {
    code.checks.iter().map(|check| {
        let edges = check.columns.iter().zip(&check.weights);
        sum(edges.map(|(&column, &weight)| code.field().product(weight, word[column])))
    })
}

/// A code of every size with the form, small ones more often.
fn code(generator: &mut Generator) -> Code {
    let size = match generator.below(40) {
        0 => Size::FULL,
        1 => Size::MOST_CHECKS,
        2 => Size::MOST_DEGREE,
        3..20 => Size::MEDIUM,
        _ => Size::SMALL,
    };
    sample::encodable_code(generator, &size)
}

/// By hand: 3 y = 1·1 + 2·2 = 1 + 3 = 2 has y = 2 / 3 = 2·2 = 3, and 2 z = 1·2 + 1·3 + 1·3 = 2 has
/// z = 1.
#[test]
fn a_message_by_hand() {
    let mut symbols = [0xA5; 7];
    assert_eq!(encode(&bytes(CODE), &[1, 2, 3], &mut symbols), Ok(5));
    assert_eq!(symbols, [1, 2, 3, 3, 1, 0xA5, 0xA5]);
}

#[test]
fn the_least_code_repeats_its_symbol() {
    let code = bytes("02 0002 01 10 01 02 000001 000101");
    for symbol in 0..4 {
        let mut symbols = [0xA5; 2];
        assert_eq!(encode(&code, &[symbol], &mut symbols), Ok(2));
        assert_eq!(symbols, [symbol; 2]);
    }
}

#[test]
fn the_message_of_zeros_gives_the_word_of_zeros() {
    let mut generator = Generator::new(61);
    for _ in 0..200 {
        let code = code(&mut generator);
        let message = vec![0; code.n - code.m];
        assert_eq!(encoded(&code, &message), vec![0; code.n]);
    }
}

/// "The first N - M symbols are the message, each check is satisfied".
#[test]
fn the_word_starts_with_the_message_and_satisfies_each_check() {
    let mut generator = Generator::new(62);
    for _ in 0..2_000 {
        let code = code(&mut generator);
        let message = sample::message(&mut generator, &code);
        let word = encoded(&code, &message);
        assert_eq!(word[..code.n - code.m], message);
        assert!(word.iter().all(|&symbol| code.field().contains(symbol)));
        assert!(syndromes(&code, &word).all(|sum| sum == 0));
    }
}

/// "no other word with that message satisfies them all": with few checks, by every word there is.
#[test]
fn no_other_word_with_the_message_satisfies_the_checks() {
    let mut generator = Generator::new(63);
    for _ in 0..300 {
        let size = Size {
            checks: 1..=3,
            ..Size::SMALL
        };
        let code = sample::encodable_code(&mut generator, &size);
        let message = sample::message(&mut generator, &code);
        let q = code.field().size();
        let mut found = Vec::new();
        for number in 0..q.pow(code.m as u32) {
            let digits = (0..code.m).map(|place| (number / q.pow(place as u32) % q) as u8);
            let word: Vec<u8> = message.iter().copied().chain(digits).collect();
            if syndromes(&code, &word).all(|sum| sum == 0) {
                found.push(word);
            }
        }
        assert_eq!(found, [encoded(&code, &message)]);
    }
}

/// The same check by check, for codes of every size: with the symbols before it as they are, check m
/// is satisfied by one symbol in column N - M + m alone, and contains no later one.
#[test]
fn each_check_leaves_one_symbol() {
    let mut generator = Generator::new(64);
    for _ in 0..500 {
        let code = code(&mut generator);
        let message = sample::message(&mut generator, &code);
        let word = encoded(&code, &message);
        for place in 0..code.m {
            let own = code.n - code.m + place;
            let mut other = word[..=own].to_vec();
            let satisfied = |symbol: &u8| {
                other[own] = *symbol;
                let check = &code.checks[place];
                let edges = check.columns.iter().zip(&check.weights);
                sum(edges.map(|(&column, &weight)| code.field().product(weight, other[column])))
                    == 0
            };
            let symbols = (0..=u8::MAX).take_while(|&symbol| code.field().contains(symbol));
            let symbols: Vec<u8> = symbols.filter(satisfied).collect();
            assert_eq!(symbols, [word[own]]);
        }
    }
}

/// What is encoded is found at once where every symbol is sure.
#[test]
fn an_encoded_word_is_found_at_the_start() {
    let mut generator = Generator::new(65);
    for _ in 0..1_000 {
        let code = code(&mut generator);
        let message = sample::message(&mut generator, &code);
        let word = encoded(&code, &message);
        let frame = sample::certain_frame(&mut generator, &code, &word);
        let mut buffers = Buffers::arbitrary(&mut generator, code.lengths());
        let before = buffers.store.clone();
        let outcome = buffers.decode(&code.line(), &frame);
        assert_eq!(outcome, Ok(Outcome::Found(0)));
        assert_eq!(buffers.symbols, word);
        let costs = frame.into_iter().map(u16::from);
        assert!(buffers.costs.into_iter().eq(costs));
        assert_eq!(buffers.store, before);
        assert!(!buffers.margins.contains(&0));
    }
}

#[test]
fn a_line_without_the_form_is_17() {
    let checks = [
        "03 000001 000102 000303",
        "04 000101 000201 000301 000402",
        "03 000001 000102 000203",
        "04 000001 000102 000303 000401",
        "03 000101 000201 000301",
    ];
    let number = |first: usize, second: usize| {
        let line = format!("020005021001 {} {}", checks[first], checks[second]);
        refused(&bytes(&line), &[1, 2, 3], 9)
    };
    assert_eq!(number(1, 0), 17, "each check in the other's place");
    assert_eq!(number(2, 1), 17, "check 0 without its column");
    assert_eq!(number(3, 1), 17, "check 0 with a higher column too");
    assert_eq!(number(1, 1), 17, "check 0 with the column of check 1");
    assert_eq!(number(0, 4), 17, "check 1 without its column");
    assert_eq!(refused(&with(1, "0006"), &[1, 2, 3], 9), 17, "N one more");
    assert_eq!(refused(&with(1, "0006"), &[1, 2, 3, 0], 9), 17);
}

/// "where N exceeds M"
#[test]
fn n_not_above_m_is_17() {
    let check = "02 000001 000101";
    for (m, answer) in [(1, Ok(2)), (2, Err(17)), (3, Err(17))] {
        let line = format!("02 0002 0{m} 10 01 {}", check.repeat(m));
        let (message, mut symbols) = (vec![3; 2_usize.saturating_sub(m)], [0; 3]);
        let found = encode(&bytes(&line), &message, &mut symbols);
        assert_eq!(found.map_err(|refusal| refusal.number()), answer);
    }
}

#[test]
fn every_near_miss_is_17() {
    let mut generator = Generator::new(66);
    let mut met = [0; Miss::ALL.len()];
    for _ in 0..3_000 {
        let code = code(&mut generator);
        assert!(has_encoding_form(&code));
        for (met, miss) in met.iter_mut().zip(Miss::ALL) {
            let Some(code) = sample::near_miss(&mut generator, &code, miss) else {
                continue;
            };
            *met += 1;
            assert!(!has_encoding_form(&code));
            let line = code.line();
            assert_eq!(code_line(&line).as_ref(), Ok(&code));
            let message = vec![0; code.n.saturating_sub(code.m)];
            assert_eq!(refused(&line, &message, code.n), 17, "{miss:?}");
        }
    }
    assert!(met.iter().all(|&count| count > 100), "{met:?}");
}

#[test]
fn a_message_of_another_length_or_a_symbol_of_q_is_18() {
    let code = bytes(CODE);
    for message in [
        &[][..],
        &[1, 2],
        &[1, 2, 3, 0],
        &[1, 2, 3, 3, 1],
        &[0; 259],
        &[4, 2, 3],
        &[1, 2, 255],
    ] {
        assert_eq!(refused(&code, message, 9), 18);
    }
}

#[test]
fn a_short_buffer_is_2() {
    for length in 0..5 {
        assert_eq!(refused(&bytes(CODE), &[1, 2, 3], length), 2);
    }
}

/// The code line's refusals, the last of them 5 for a byte left over, come before 17.
#[test]
fn the_code_lines_refusals_are_before_17() {
    // The last weight is 0, and check 0 has not its column.
    let mut weight = with(13, "0002");
    *weight.last_mut().expect("a byte") = 0;
    assert_eq!(refused(&weight, &[1, 2, 3], 9), 11);
    let left_over = [with(13, "0002"), vec![0]].concat();
    assert_eq!(refused(&left_over, &[1, 2, 3], 9), 5);
    assert_eq!(refused(&with(13, "0002"), &[1, 2, 3], 9), 17);
    assert_eq!(refused(&[], &[], 0), 5);
    // N is M, and p, g or a degree is out of range.
    assert_eq!(refused(&with(0, "0700020211"), &[], 9), 6);
    assert_eq!(refused(&with(1, "00020211"), &[], 9), 8);
    assert_eq!(refused(&with(1, "0002021001 01"), &[], 9), 9);
}

#[test]
fn the_form_is_17_before_18() {
    for message in [&[][..], &[1, 2, 3, 0], &[4, 2, 3]] {
        assert_eq!(refused(&with(13, "0002"), message, 9), 17);
        assert_eq!(refused(&with(13, "0002"), message, 0), 17);
    }
}

#[test]
fn the_message_is_18_before_2() {
    for length in 0..5 {
        assert_eq!(refused(&bytes(CODE), &[1, 2], length), 18);
        assert_eq!(refused(&bytes(CODE), &[1, 2, 4], length), 18);
    }
}
