//! The program. Document 01, "Program": "`decode` reads standard input: first the code line, then
//! one frame a line". "Each frame gives one line: status, t, then the symbols, all as two-digit
//! bytes. A refused line prints its number as such a byte (12 as 0C) and 00 only; a refused code
//! line ends the program."

use std::io::{self, BufRead, Read, Write};

use crate::code::{code_line, MOST_CHECKS, MOST_COLUMNS, MOST_EDGES};
use crate::line::{hexadecimal, line, LINE_LIMIT};
use crate::machine::decode;
use crate::refusal::Refusal;

/// "The program reads at most 4,294,967,295 bytes and takes the input as ended there."
pub const INPUT_LIMIT: u64 = 4_294_967_295;

/// q at its greatest, for p = 6.
const MOST_SYMBOLS: usize = 64;
/// The bytes of a record for one a at their most, for k = 3.
const MOST_ENTRY: usize = 7;

/// The program's whole output for an input.
pub fn program(input: &[u8]) -> Vec<u8> {
    let mut output = Vec::new();
    run(input, &mut output, INPUT_LIMIT).expect("slices and vectors make no input or output error");
    output
}

/// Runs the program from `input` to `output`, reading at most `limit` bytes; for the program as
/// document 01 has it, the limit is [`INPUT_LIMIT`].
pub fn run(input: impl BufRead, output: &mut impl Write, limit: u64) -> io::Result<()> {
    let mut input = input.take(limit);
    // "Empty input prints the line `0500`": it counts as a code line without bytes.
    let code_text = next_line(&mut input)?.unwrap_or_default();
    let code = match accepted_code(&code_text) {
        Ok(code) => code,
        Err(refusal) => return output.write_all(&refused_line(refusal)),
    };
    while let Some(text) = next_line(&mut input)? {
        output.write_all(&frame_line(&code, &text))?;
    }
    Ok(())
}

/// The bytes of the code line's text when the code line is accepted.
fn accepted_code(text: &[u8]) -> Result<Vec<u8>, Refusal> {
    let bytes = line_bytes(text)?;
    code_line(&bytes)?;
    Ok(bytes)
}

/// The printed line, with its 0A, for the text of a frame's line without its 0A. "Line refusals
/// come before all others. Each printed line ends in 0A."
pub fn frame_line(code: &[u8], text: &[u8]) -> Vec<u8> {
    match line_bytes(text).and_then(|frame| result_bytes(code, &frame)) {
        Ok(bytes) => printed(&bytes),
        Err(refusal) => refused_line(refusal),
    }
}

/// "A refused line prints its number as such a byte (12 as 0C) and 00 only".
fn refused_line(refusal: Refusal) -> Vec<u8> {
    printed(&[refusal.number(), 0])
}

/// "status, t, then the symbols"
fn result_bytes(code: &[u8], frame: &[u8]) -> Result<Vec<u8>, Refusal> {
    let mut symbols = [0; MOST_COLUMNS];
    let mut costs = [0; MOST_COLUMNS * MOST_SYMBOLS];
    let mut store = [0; MOST_EDGES + MOST_CHECKS * MOST_ENTRY * (MOST_SYMBOLS - 1)];
    // Document 02, §6: "The printed line is as before."
    let mut margins = [0; MOST_COLUMNS];
    let (costs, store) = (&mut costs, &mut store);
    let outcome = decode(code, frame, &mut symbols, costs, store, &mut margins)?;
    let columns = code_line(code)?.n;
    let mut bytes = vec![outcome.status(), outcome.iterations()];
    bytes.extend(&symbols[..columns]);
    Ok(bytes)
}

/// Bytes as two digits each, then 0A.
fn printed(bytes: &[u8]) -> Vec<u8> {
    let mut text = hexadecimal(bytes);
    text.push(b'\n');
    text
}

/// The bytes of a line's text.
fn line_bytes(text: &[u8]) -> Result<Vec<u8>, Refusal> {
    let mut bytes = vec![0; LINE_LIMIT / 2];
    let length = line(text, &mut bytes)?;
    bytes.truncate(length);
    Ok(bytes)
}

/// The next line without its 0A, none at the end of input. "Lines end in byte 0A; a last line
/// without it counts if not empty." Of a line that is too long only as much is kept as shows this,
/// "the rest of the line is skipped".
fn next_line(input: &mut impl BufRead) -> io::Result<Option<Vec<u8>>> {
    let mut text = Vec::new();
    let room = u64::try_from(LINE_LIMIT).expect("a small number") + 1;
    input.by_ref().take(room).read_until(b'\n', &mut text)?;
    if text.is_empty() {
        return Ok(None);
    }
    if text.last() == Some(&b'\n') {
        text.pop();
    } else {
        input.skip_until(b'\n')?;
    }
    Ok(Some(text))
}
