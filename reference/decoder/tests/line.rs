//! Document 01, "Program": the digits of a line.

use reference_decoder::line;
use reference_decoder::line::{hexadecimal, LINE_LIMIT};
use reference_decoder::sample::Generator;

/// The bytes of a text, or the refusal's number.
fn read(text: &[u8]) -> Result<Vec<u8>, u8> {
    let mut out = vec![0; text.len() / 2];
    let written = line(text, &mut out).map_err(|refusal| refusal.number())?;
    assert_eq!(written, out.len());
    Ok(out)
}

#[test]
fn two_digits_make_a_byte() {
    assert_eq!(read(b""), Ok(vec![]));
    assert_eq!(read(b"000A10FF9C"), Ok(vec![0x00, 0x0A, 0x10, 0xFF, 0x9C]));
}

#[test]
fn only_0_to_9_and_capital_a_to_f_are_digits() {
    for byte in 0..=255u8 {
        let value = b"0123456789ABCDEF".iter().position(|&digit| digit == byte);
        match value {
            Some(value) => {
                assert_eq!(read(&[byte, b'0']), Ok(vec![16 * value as u8]));
                assert_eq!(read(&[b'0', byte]), Ok(vec![value as u8]));
            }
            None => {
                assert_eq!(read(&[byte, b'0']), Err(14));
                assert_eq!(read(&[b'0', byte]), Err(14));
            }
        }
    }
}

#[test]
fn a_line_may_have_32768_bytes() {
    assert_eq!(read(&vec![b'0'; LINE_LIMIT]), Ok(vec![0; LINE_LIMIT / 2]));
    assert_eq!(read(&vec![b'0'; LINE_LIMIT + 1]), Err(15));
    assert_eq!(read(&vec![b'0'; LINE_LIMIT - 1]), Err(14));
}

#[test]
fn a_line_of_printed_bytes_gives_the_bytes() {
    let mut generator = Generator::new(20);
    for count in 0..300 {
        let bytes = generator.bytes(count);
        assert_eq!(read(&hexadecimal(&bytes)), Ok(bytes));
    }
}
