//! Inputs for tests: a deterministic generator, and functions that make accepted checks, records,
//! codes, frames, messages and program inputs of any size, damaged variants of them, and the buffers of a
//! decoding.
//!
//! The same seed always gives the same inputs. Nothing here is part of the documents' calls; the
//! tests of this package and the comparison with the proved library use it.

mod buffers;
mod checks;
mod codes;
mod costs;
mod damage;
mod encodings;
mod generator;
mod inputs;

pub use buffers::Buffers;
pub use checks::{check, first_byte, first_byte_with, record, weights, CheckSample};
pub use codes::{code, frame, noisy_frame, CodeSample, Size};
pub use costs::{column, column_deciding, columns, Style};
pub use damage::{
    damaged_check, damaged_code, damaged_frame, damaged_message, damaged_record, damaged_text,
};
pub use encodings::{certain_frame, encodable_code, message, near_miss, Miss};
pub use generator::Generator;
pub use inputs::program_input;

/// The bytes of hexadecimal digits; spaces between them are skipped. For expected values in tests.
///
/// # Panics
///
/// When the text holds something else.
pub fn bytes(digits: &str) -> Vec<u8> {
    let text: Vec<u8> = digits.bytes().filter(|&byte| byte != b' ').collect();
    let mut out = vec![0; text.len() / 2];
    crate::line::line(&text, &mut out).expect("hexadecimal digits, two a byte");
    out
}
