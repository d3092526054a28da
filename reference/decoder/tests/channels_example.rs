//! The frames of `examples/channels.c`, through this package's channels: the lines are those that the example must print.

use reference_decoder::channels::SPENT;
use reference_decoder::line::hexadecimal;
use reference_decoder::sample::{bytes, Buffers};
use reference_decoder::{channels, code_line};

/// What `examples/channels.c` prints.
const EXPECTED: &str = include_str!("../../../examples/channels.out");

const CODE: &str = "020006040C08 03000001000102000301 03000101000203000401 \
                    03000002000201000501 03000301000402000503";
const FRAMES: [&str; 4] = [
    "090B000C 0E08000A 00090D0C 07000D0A 0B0A0008 08070A00",
    "0009030B 040F0200 0408000D 06000D0A 0B0A0008 08070A00",
    "090B010C 0E08000A 00090D0C 07000D0A 0B0A0008 08070A00",
    "000B020C 0E08000A 00090D0C 07000D0A 0B0A0008 08070A00",
];

fn status_name(status: u8) -> &'static str {
    match status {
        0 => "found",
        1 => "not found",
        SPENT => "spent",
        _ => "refused",
    }
}

/// Serves all channels and adds the lines that show what became of them.
fn serve(allowance: u32, buffers: &mut Buffers, lines: &mut Vec<String>) {
    let (code, frames) = (bytes(CODE), bytes(&FRAMES.concat()));
    let served = channels(4, allowance, buffers.lend(&code, &frames)).expect("an accepted call");
    lines.push(format!("allowance {allowance}: spent {}", served.spent()));
    let symbols = buffers.symbols.chunks(6);
    for (channel, (ended, symbols)) in served.channels.iter().zip(symbols).enumerate() {
        let (status, j) = (ended.status(), ended.iterations());
        let symbols = String::from_utf8(hexadecimal(symbols)).expect("digits");
        let name = status_name(status);
        lines.push(format!(
            "channel {channel}: status {status:>2}, {name:<7} iterations {j}, symbols {symbols}"
        ));
    }
}

#[test]
fn the_example_prints_these_lines() {
    let code = code_line(&bytes(CODE)).expect("an accepted code line");
    let mut buffers = Buffers::zeroed(code.lengths().map(|one| 4 * one));
    let mut lines = Vec::new();
    serve(3, &mut buffers, &mut lines);
    serve(32, &mut buffers, &mut lines);
    assert_eq!(lines.join("\n") + "\n", EXPECTED);
}
