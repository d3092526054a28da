//! The sections about the other calls that decode, beside `decode`.

use super::{micros, quotient, table};
use crate::decoding::Row;
use crate::engines::Engine;
use crate::targets::{OF_DECODE, OF_EIGHT};

/// The section about the register window.
pub fn window(rows: &[Row]) -> String {
    format!(
        "## Decoding through the register window\n\nThe same decoding by writes to `petsivola_window_write`: a load, then \
         commands 2 until the interrupt is raised. Each of them reads the code line, makes all tests, those of the lent \
         costs and records included, and leaves decisions and margins; one `decode` does so once a frame. Both leave the \
         same bytes. Asked for: at most {OF_DECODE} times as long as one `decode` on the GF(32) code. Frames as in the \
         section before.\n\n{}",
        beside(rows, "window", Engine::ProvedWindow)
    )
}

/// The section about several channels.
pub fn channels(rows: &[Row]) -> String {
    format!(
        "## Eight channels with one allowance\n\nEight frames in one `petsivola_channels`, with an allowance that is enough \
         for all, beside eight times `decode`. The call serves the channels in turn, an iteration each: between two \
         iterations of one channel the others pass through the caches. Both leave the same bytes. Asked for: at most \
         {OF_EIGHT} times as long as eight `decode`. Frames as in the sections before.\n\n{}",
        beside(rows, "channels", Engine::ProvedChannels)
    )
}

/// The times of an engine beside those of `decode`, a row for each code.
fn beside(rows: &[Row], name: &str, engine: Engine) -> String {
    let head = [
        "code".to_string(),
        "Eb/N0, dB".to_string(),
        "mean iterations".to_string(),
        "`decode`, µs an iteration".to_string(),
        format!("{name}, µs an iteration"),
        format!("{name} / `decode`"),
    ];
    let cells = |row: &Row| {
        vec![
            row.job.name.to_string(),
            format!("{:.1}", row.job.decibels),
            format!("{:.1}", row.mean_iterations),
            micros(row.decode.median(Engine::Proved)),
            micros(row.decode.median(engine)),
            quotient(&row.decode, engine, Engine::Proved),
        ]
    };
    table(&head, rows.iter().map(cells))
}
