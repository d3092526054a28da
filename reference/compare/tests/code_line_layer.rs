//! `code_line` of the static library against the reference decoder, from a fixed seed, and against the calls of the same
//! library that take a code line. The comparison prints one line with its counts and fails when a class of answers was
//! never met.

mod entry_point;

use compare::CODE_LINE;
use petsivola::{channels, code_line, combine, decode, decode_early, encode};
use petsivola::{CodeLine, Lent, Outcome, Refusal, State, Window};
use reference_decoder::sample::{self, Buffers, Generator, Size};

#[test]
fn code_lines() {
    entry_point::compare(&CODE_LINE);
}

/// An accepted code line, of any size.
fn line(generator: &mut Generator, round: usize) -> Vec<u8> {
    let size = match round % 100 {
        0 => Size::MOST_CHECKS,
        1 => Size::MOST_DEGREE,
        2 => Size::FULL,
        3..30 => Size::MEDIUM,
        _ => Size::SMALL,
    };
    sample::code(generator, &size).line
}

/// The library's view of buffers.
fn lend<'a>(code: &'a [u8], frame: &'a [u8], buffers: &'a mut Buffers) -> Lent<'a> {
    Lent {
        code,
        frame,
        symbols: &mut buffers.symbols,
        costs: &mut buffers.costs,
        store: &mut buffers.store,
        margins: &mut buffers.margins,
    }
}

/// The lengths of a decoding's buffers, in the order of the parameters.
fn lengths(code: &CodeLine) -> [usize; 4] {
    let (columns, store) = (code.columns(), code.store_length());
    [columns, code.frame_length(), store, columns]
}

/// Every other call that takes a code line refuses it by the number that `code_line` answers.
#[test]
fn every_call_refuses_a_line_by_the_same_number() {
    let mut generator = Generator::new(10);
    let mut refused = 0;
    for round in 0..20_000 {
        let line = line(&mut generator, round);
        let line = sample::damaged_code(&mut generator, &line);
        let Err(refusal) = code_line(&line) else {
            continue;
        };
        refused += 1;
        let lent = || Lent {
            code: &line,
            ..Lent::default()
        };
        let mut window = Window::IDLE;
        window.load(lent());
        let answers = [
            decode(&line, &[], &mut [], &mut [], &mut [], &mut []).err(),
            decode_early(&line, &[], &mut [], &mut [], &mut [], &mut []).err(),
            encode(&line, &[], &mut []).err(),
            combine(&line, &[], &[], &mut []).err(),
            channels(1, 1, lent()).err(),
        ];
        assert_eq!(answers, [Some(refusal); 5]);
        assert_eq!(window.state(), State::Refused(refusal));
    }
    assert!(refused > 15_000, "{refused}");
}

/// Buffers as long as `code_line` says are what a decoding needs: a frame is decoded in them, and with one element less
/// in any of them it is refused. All of the store is written by an iteration.
#[test]
fn the_lengths_are_what_decode_needs() {
    let mut generator = Generator::new(11);
    let mut iterated = 0;
    for round in 0..2_000 {
        let mut line = line(&mut generator, round);
        line[5] = 1;
        let code = code_line(&line).expect("an accepted code line");
        let mut frame = generator.bytes(code.frame_length());
        for column in frame.chunks_exact_mut(code.rule().elements()) {
            column[generator.below(column.len())] = 0;
        }
        let needed = lengths(&code);
        for (place, number) in [2, 3, 4, 19].into_iter().enumerate() {
            let mut short = needed;
            short[place] -= 1;
            let mut buffers = Buffers::arbitrary(&mut generator, short);
            let refused = decoded(lend(&line, &frame, &mut buffers));
            assert_eq!(refused, Err(Refusal::from(number)));
        }
        let [mut least, mut most] = [0x00, 0xFF].map(|byte| {
            let mut buffers = Buffers::zeroed(needed);
            buffers.store.fill(byte);
            buffers
        });
        let outcome = decoded(lend(&line, &frame, &mut least));
        assert_eq!(decoded(lend(&line, &frame, &mut most)), outcome);
        if outcome.expect("an accepted frame").iterations() == 1 {
            assert_eq!(least, most);
            iterated += 1;
        }
    }
    assert!(iterated > 1_500, "{iterated}");
}

fn decoded(lent: Lent) -> Result<Outcome, Refusal> {
    let (symbols, costs) = (lent.symbols, lent.costs);
    let (store, margins) = (lent.store, lent.margins);
    decode(lent.code, lent.frame, symbols, costs, store, margins)
}
