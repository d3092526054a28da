//! The register window of the static library against the reference decoder, from a fixed seed, and against
//! `decode` of the same library. The comparison prints one line with its counts and fails when a class of answers
//! was never met.

mod entry_point;

use compare::WINDOW;
use petsivola::{decode, Lent, Window};
use reference_decoder::code_line;
use reference_decoder::sample::{self, Buffers, Generator, Size, Style};

#[test]
fn windows() {
    entry_point::compare(&WINDOW);
}

/// The library's view of buffers.
fn lend<'a>(code: &'a [u8], frame: &'a [u8], buffers: &'a mut Buffers) -> Lent<'a> {
    Lent {
        code,
        frame,
        symbols: &mut buffers.symbols,
        costs: &mut buffers.costs,
        store: &mut buffers.store,
        margins: &mut buffers.margins,
    }
}

/// "a load that is not refused, followed by I commands 2 with no load between, ends with the outcome, t and buffers of
/// one decode call on the buffers as the load found them"
#[test]
fn a_load_and_i_iterations_are_one_decoding() {
    let mut generator = Generator::new(3);
    for round in 0..4_000 {
        let size = match round % 100 {
            0 => Size::MOST_CHECKS,
            1 => Size::MOST_DEGREE,
            2 => Size::FULL,
            3..30 => Size::MEDIUM,
            _ => Size::SMALL,
        };
        let sample = sample::code(&mut generator, &size);
        let code = code_line(&sample.line).expect("an accepted code line");
        let style = generator.one_of(&Style::ALL);
        let wrong = generator.between(0..=code.n / 2);
        let frame = sample::noisy_frame(&mut generator, &code, &sample.word, wrong, style);
        let mut decoded = Buffers::arbitrary(&mut generator, code.lengths());
        let mut buffers = decoded.clone();
        let (symbols, costs) = (&mut decoded.symbols, &mut decoded.costs);
        let (store, margins) = (&mut decoded.store, &mut decoded.margins);
        let outcome = decode(&sample.line, &frame, symbols, costs, store, margins);
        let outcome = outcome.expect("an accepted frame");
        let mut window = Window::IDLE;
        window.load(lend(&sample.line, &frame, &mut buffers));
        for _ in 0..code.limit {
            window.iterate(lend(&sample.line, &frame, &mut buffers));
            window.set_mask(generator.byte(0..=255));
            window.clear_pending();
        }
        let [state, refusal, t, _, pending] = window.registers();
        let expected = [2 + outcome.status(), 0, outcome.iterations(), 0];
        assert_eq!([state, refusal, t, pending], expected);
        assert_eq!(buffers, decoded);
    }
}
