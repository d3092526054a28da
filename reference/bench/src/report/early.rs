//! The section about stopping inside an iteration.

use super::{micros, quotient, table};
use crate::early::Row;
use crate::engines::Engine;
use crate::targets::OF_UPDATE;

/// The section.
pub fn section(rows: &[Row]) -> String {
    let head = [
        "code",
        "Eb/N0, dB",
        "`decode`, mean updates",
        "`decode_early`, mean updates",
        "updates saved",
        "`decode`, µs an update",
        "`decode_early`, µs an update",
        "Rust, µs an update",
        "an update, `decode_early` / `decode`",
        "an update, proved / Rust",
        "whole calls, `decode_early` / `decode`",
    ];
    format!(
        "## Stopping inside an iteration\n\n`petsivola_decode_early` decides and tests after each check update and stops as \
         soon as every check is satisfied; `decode` does so once an iteration, after M updates. The former makes fewer \
         updates, and each takes longer: the columns of the check are decided again, and where a symbol changed the test \
         goes on from the check at which it failed before. The time of an update is that of a whole call, with the \
         reading of the code line and the first test, divided by its updates. Whole calls: the time for all frames, the \
         median over the rounds. Rust stops as `decode_early` does, by the same algorithm. Both leave the same bytes, and so \
         does `decode` where it makes as many updates. Asked for: an update takes at most {OF_UPDATE} times as long as one \
         of `decode`, on the GF(32) code and at p = 6. Frames as in the sections before; they are few, and what is saved on \
         average stands in `docs/simulation`.\n\n{}",
        table(&head, rows.iter().map(cells))
    )
}

/// The cells of one code.
fn cells(row: &Row) -> Vec<String> {
    vec![
        row.job.name.to_string(),
        format!("{:.1}", row.job.decibels),
        format!("{:.1}", row.decode_updates),
        format!("{:.1}", row.early_updates),
        format!("{:.1} %", 100.0 * row.saved()),
        micros(row.update.median(Engine::Proved)),
        micros(row.update.median(Engine::ProvedEarly)),
        micros(row.update.median(Engine::Rust)),
        format!("{:.2}", row.of_update()),
        quotient(&row.update, Engine::ProvedEarly, Engine::Rust),
        format!("{:.2}", row.of_frames()),
    ]
}
