//! One line's text. Document 01, "Program": "all as hexadecimal digits 0-9 and A-F, two a byte."

use crate::refusal::Refusal;

/// "15, more than 32,768 bytes before the 0A or the end of input"
pub const LINE_LIMIT: usize = 32_768;

/// Reads the text of one line, without its 0A, into bytes. Order: "Line: 15, 14, 2."
pub fn line(text: &[u8], out: &mut [u8]) -> Result<usize, Refusal> {
    if text.len() > LINE_LIMIT {
        return Err(Refusal::LongLine);
    }
    if text.len() % 2 == 1 {
        return Err(Refusal::Digits);
    }
    let bytes = text
        .chunks_exact(2)
        .map(|pair| Some(16 * digit(pair[0])? + digit(pair[1])?))
        .collect::<Option<Vec<u8>>>()
        .ok_or(Refusal::Digits)?;
    if out.len() < bytes.len() {
        return Err(Refusal::ShortBuffer);
    }
    out[..bytes.len()].copy_from_slice(&bytes);
    Ok(bytes.len())
}

/// The value of one of the "hexadecimal digits 0-9 and A-F", none for another byte.
fn digit(byte: u8) -> Option<u8> {
    match byte {
        b'0'..=b'9' => Some(byte - b'0'),
        b'A'..=b'F' => Some(byte - b'A' + 10),
        _ => None,
    }
}

/// The text of bytes, two digits a byte.
pub fn hexadecimal(bytes: &[u8]) -> Vec<u8> {
    const DIGITS: &[u8; 16] = b"0123456789ABCDEF";
    bytes
        .iter()
        .flat_map(|&byte| [byte / 16, byte % 16])
        .map(|digit| DIGITS[usize::from(digit)])
        .collect()
}
