//! Inputs of the program.

use std::io::{self, Cursor, Read};

use reference_decoder::line::{hexadecimal, LINE_LIMIT};
use reference_decoder::program::INPUT_LIMIT;
use reference_decoder::sample::{self, Generator, Size};

/// Document 01's example, its code line and its frame.
const CODE: &[u8] = b"02000301100103000001000101000201";
const FRAME: &[u8] = b"05000907000408030006020A";

/// A random input with at most this many frames: mostly accepted lines, some damaged ones.
pub fn random(generator: &mut Generator, size: &Size, frames: usize) -> Vec<u8> {
    sample::program_input(generator, size, frames)
}

/// Document 01's example, and inputs each made for one rule of its section "Program" or for document 02,
/// §1, §3 and §5.
pub fn chosen() -> Vec<Vec<u8>> {
    let mut inputs = vec![lines(&[CODE, FRAME])];
    inputs.extend(few_columns());
    inputs.extend(first_bytes());
    inputs.extend(ends());
    inputs.extend(other_bytes());
    inputs.extend(long_lines());
    // More than one block of input and of output.
    let mut many = vec![CODE];
    many.extend(vec![FRAME; 20_000]);
    inputs.push(lines(&many));
    inputs
}

/// Document 02, §1, "Checks on two columns": codes of three, two and one column, each with a frame, and
/// checks on two and one, with their edges and without.
fn few_columns() -> Vec<Vec<u8>> {
    let three = b"00050709040008030602000A";
    vec![
        lines(&[b"0200030210020200000100010102000101000203", three]),
        lines(&[b"02000201100302000001000101", b"0005070904000803"]),
        lines(&[b"02000101100302000001000101", b"00050709"]),
        lines(&[b"02000101100301000001", b"00050709"]),
        lines(&[b"02000301100101000001", three]),
        lines(&[b"02000301100101", three]),
        lines(&[b"02000301100102", three]),
    ]
}

/// Document 02, §3, "Three deviations", and §5, "Min-Max edition": a frame that is found with three deviations
/// and not with two, and one that is found by the greatest and not by the sum, under their code with every
/// first byte there is, and document 01's example with each.
fn first_bytes() -> Vec<Vec<u8>> {
    let rest = b"00050208030400000200010400030700040204000005000201000305000404";
    let by_three =
        b"0020E9B2B21399A98F111A9E00F3EDBBBB00B38DB3C70DBA0E009D54A8F7CA73501E905BE9D100E0";
    let by_greatest =
        b"0E635DB200544FA40059177016702D87008338BB2AAD62E600062329575D7B811346003245783264";
    let mut inputs = Vec::new();
    for first in 0..=u8::MAX {
        let with_first = |rest: &[u8]| [&hexadecimal(&[first]), rest].concat();
        inputs.push(lines(&[&with_first(rest), by_three, by_greatest]));
        inputs.push(lines(&[&with_first(&CODE[2..]), FRAME]));
    }
    inputs
}

/// "Lines end in byte 0A; a last line without it counts if not empty." "Empty input prints the line
/// `0500`."
fn ends() -> Vec<Vec<u8>> {
    let example = lines(&[CODE, FRAME]);
    let mut inputs: Vec<Vec<u8>> = (0..=example.len())
        .map(|length| example[..length].to_vec())
        .collect();
    inputs.extend([
        lines(&[b""]),
        lines(&[b"", CODE, FRAME]),
        lines(&[CODE, b"", FRAME, b"", b""]),
        [lines(&[CODE, FRAME]), FRAME.to_vec()].concat(),
    ]);
    inputs
}

/// "14, odd digit count or another byte": each byte at the start, in the middle and at the end of a
/// frame's line, and of the code line.
fn other_bytes() -> Vec<Vec<u8>> {
    let mut inputs = Vec::new();
    for byte in 0..=255 {
        let with_byte = |text: &[u8], place: usize| {
            let mut text = text.to_vec();
            text[place] = byte;
            text
        };
        let places = [0, FRAME.len() / 2, FRAME.len() - 1];
        let [first, middle, last] = places.map(|place| with_byte(FRAME, place));
        let longer = [FRAME, &[byte]].concat();
        inputs.push(lines(&[CODE, &first, &middle, &last, &longer, FRAME]));
        inputs.push(lines(&[&with_byte(CODE, 1), FRAME]));
    }
    inputs
}

/// "15, more than 32,768 bytes before the 0A or the end of input (the rest of the line is skipped)":
/// lines of lengths around the limit and around the sizes of blocks, of digits and of other bytes,
/// as frames, with an accepted frame after them and without, and as the code line.
fn long_lines() -> Vec<Vec<u8>> {
    let limit = LINE_LIMIT;
    let mut inputs = Vec::new();
    let powers = (12..=18).map(|power| 1_usize << power);
    for length in powers.flat_map(|power| power - 2..=power + 2) {
        for byte in [b'0', b'\r'] {
            let long = vec![byte; length];
            inputs.push(lines(&[CODE, &long, FRAME, &long]));
            inputs.push([lines(&[CODE, FRAME]), long].concat());
        }
    }
    for length in [limit - 1, limit, limit + 1, 3 * limit, 2_000_000] {
        inputs.push(lines(&[&vec![b'0'; length], FRAME]));
        inputs.push(vec![b'0'; length]);
    }
    inputs
}

/// Lines, each with its 0A.
fn lines(lines: &[&[u8]]) -> Vec<u8> {
    let mut input = Vec::new();
    for line in lines {
        input.extend(*line);
        input.push(b'\n');
    }
    input
}

/// The input in pieces: all at once, or as short random ones, which end within lines.
pub fn in_pieces<'a>(input: &'a [u8], generator: &mut Generator) -> impl Read + Send + 'a {
    let most = match generator.below(4) {
        0 if input.len() < 10_000 => generator.between(1..=50),
        1 => generator.between(1_000..=5_000),
        _ => input.len().max(1),
    };
    InPieces {
        rest: input,
        most,
        generator: generator.clone(),
    }
}

struct InPieces<'a> {
    rest: &'a [u8],
    most: usize,
    generator: Generator,
}

impl Read for InPieces<'_> {
    fn read(&mut self, buffer: &mut [u8]) -> io::Result<usize> {
        let count = self.generator.between(1..=self.most);
        let count = count.min(self.rest.len()).min(buffer.len());
        let (piece, rest) = self.rest.split_at(count);
        buffer[..count].copy_from_slice(piece);
        self.rest = rest;
        Ok(count)
    }
}

/// An input that is longer than the program reads, whose output is another one with every other limit:
/// the example, one line with almost all the bytes there may be, and a frame whose last digit is the
/// last byte that may be read. With a lower limit this frame is cut or missing; with a higher one it
/// has digits too many, and then come more frames.
pub fn past_the_limit() -> impl Read + Send {
    let start = lines(&[CODE, FRAME]);
    let last = [b"\n", FRAME].concat();
    let past = lines(&[b"0", FRAME, FRAME]);
    let around = u64::try_from(start.len() + last.len()).expect("a short input");
    let long = io::repeat(b'0').take(INPUT_LIMIT - around);
    Cursor::new(start)
        .chain(long)
        .chain(Cursor::new(last))
        .chain(Cursor::new(past))
}
