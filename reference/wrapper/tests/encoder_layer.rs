//! `encode` on an example worked by hand, on each of its refusals and on inputs that no caller means.
//! The comparison with the reference decoder is in the package `compare`.

use petsivola::{decode, encode, lengths, Outcome, Refusal};

/// p = 2, N = 5, M = 2, g = 16, I = 1: check 0 on columns 0, 1, 3 with weights 1, 2, 3, and check 1 on
/// columns 1, 2, 3, 4 with weights 1, 1, 1, 2.
const CODE: [u8; 29] = [
    2, 0, 5, 2, 16, 1, // p, N, M, g, I
    3, 0, 0, 1, 0, 1, 2, 0, 3, 3, // check 0
    4, 0, 1, 1, 0, 2, 1, 0, 3, 1, 0, 4, 2, // check 1
];

/// The answer, and that a refused call has changed nothing.
fn answer(code: &[u8], message: &[u8], length: usize) -> Result<usize, Refusal> {
    let mut symbols = vec![0xA5; length];
    let answer = encode(code, message, &mut symbols);
    if answer.is_err() {
        assert_eq!(symbols, vec![0xA5; length]);
    }
    answer
}

/// 3 y = 1·1 + 2·2 = 2 has y = 3, and 2 z = 1·2 + 1·3 + 1·y = 2 has z = 1.
#[test]
fn encode_writes_the_word_and_nothing_else() {
    let mut symbols = [0xA5; 7];
    assert_eq!(encode(&CODE, &[1, 2, 3], &mut symbols), Ok(5));
    assert_eq!(symbols, [1, 2, 3, 3, 1, 0xA5, 0xA5]);
    assert_eq!(lengths::message(5, 2), Some(3));
}

/// Cost 0 at the encoded symbols and above 0 elsewhere: found at t = 0.
#[test]
fn what_is_encoded_is_found_at_the_start() {
    for number in 0..64 {
        let message = [number & 3, number >> 2 & 3, number >> 4];
        let mut word = [0xA5; 5];
        assert_eq!(encode(&CODE, &message, &mut word), Ok(5));
        let mut frame = [9; 20];
        for (column, &symbol) in frame.chunks_exact_mut(4).zip(&word) {
            column[usize::from(symbol)] = 0;
        }
        let (mut symbols, mut costs, mut store) = ([0xA5; 5], [0xA5A5; 20], [0xA5; 37]);
        let (mut margins, costs) = ([0xA5A5; 5], &mut costs);
        let outcome = decode(&CODE, &frame, &mut symbols, costs, &mut store, &mut margins);
        assert_eq!(outcome, Ok(Outcome::Found(0)));
        assert_eq!((symbols, store), (word, [0xA5; 37]));
        assert_eq!(margins, [9; 5]);
    }
}

#[test]
fn the_code_lines_refusals_come_first() {
    let with = |place: usize, byte: u8| {
        let mut code = CODE;
        // Check 0 without its own column: 17 where nothing comes before.
        code[14] = 2;
        code[place] = byte;
        answer(&code, &[], 0)
    };
    assert_eq!(with(14, 2), Err(Refusal::NoForm));
    assert_eq!(with(0, 7), Err(Refusal::FieldSize));
    assert_eq!(with(3, 0), Err(Refusal::ColumnsOrChecks));
    assert_eq!(with(4, 17), Err(Refusal::ScaleOrLimit));
    assert_eq!(with(6, 1), Err(Refusal::Degree));
    assert_eq!(with(27, 5), Err(Refusal::Column));
    assert_eq!(with(28, 4), Err(Refusal::Weight));
    assert_eq!(answer(&CODE[..28], &[], 0), Err(Refusal::CodeBytes));
}

#[test]
fn the_form_then_the_message_then_the_buffer() {
    let mut higher = CODE;
    // Check 0 with the column of check 1 in the place of its own.
    higher[14] = 4;
    let mut wider = CODE;
    wider[2] = 6;
    let square = [2, 0, 2, 2, 16, 1, 2, 0, 0, 1, 0, 1, 1, 2, 0, 0, 1, 0, 1, 1];
    for code in [&higher[..], &wider, &square] {
        for message in [&[][..], &[1, 2, 3], &[4, 4, 4]] {
            for length in [0, 9] {
                assert_eq!(answer(code, message, length), Err(Refusal::NoForm));
            }
        }
    }
    for message in [&[][..], &[1, 2], &[1, 2, 3, 0], &[4, 2, 3], &[1, 2, 255]] {
        for length in [0, 4, 5, 9] {
            assert_eq!(answer(&CODE, message, length), Err(Refusal::Message));
        }
    }
    for length in 0..5 {
        assert_eq!(answer(&CODE, &[1, 2, 3], length), Err(Refusal::ShortBuffer));
    }
    assert_eq!(answer(&CODE, &[1, 2, 3], 5), Ok(5));
}

#[test]
fn empty_slices_are_answered() {
    assert_eq!(answer(&[], &[], 0), Err(Refusal::CodeBytes));
    assert_eq!(answer(&CODE, &[], 0), Err(Refusal::Message));
}
