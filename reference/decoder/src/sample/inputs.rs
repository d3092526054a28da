//! Whole inputs of the program.

use super::{codes, damage, Generator, Size, Style};
use crate::code::code_line;
use crate::line::hexadecimal;

/// The input of one run of the program: a code line of the size and up to `frames` frames. One code
/// line in eight and one frame line in three is damaged, and some last lines lack their 0A.
pub fn program_input(generator: &mut Generator, size: &Size, frames: usize) -> Vec<u8> {
    let sample = codes::code(generator, size);
    let code = code_line(&sample.line).expect("an accepted code line");
    let mut lines = vec![if generator.once_in(8) {
        let line = damage::damaged_code(generator, &sample.line);
        damaged_sometimes(generator, &line)
    } else {
        hexadecimal(&sample.line)
    }];
    for _ in 0..generator.between(0..=frames) {
        let style = generator.one_of(&Style::ALL);
        let frame = if generator.once_in(3) {
            codes::frame(generator, &code, style)
        } else {
            let wrong = generator.between(0..=code.n / 4 + 1);
            codes::noisy_frame(generator, &code, &sample.word, wrong, style)
        };
        lines.push(if generator.once_in(3) {
            let frame = damage::damaged_frame(generator, code.field().size(), &frame);
            damaged_sometimes(generator, &frame)
        } else {
            hexadecimal(&frame)
        });
    }
    let mut input = lines.join(&b'\n');
    if !generator.once_in(4) {
        input.push(b'\n');
    }
    input
}

/// The text of the bytes, damaged once in two times.
fn damaged_sometimes(generator: &mut Generator, bytes: &[u8]) -> Vec<u8> {
    let text = hexadecimal(bytes);
    if generator.once_in(2) {
        damage::damaged_text(generator, &text)
    } else {
        text
    }
}
