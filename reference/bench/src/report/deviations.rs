//! The section about checks with k = 3.

use super::{micros, quotient, table};
use crate::checks::Row;
use crate::engines::Engine;
use crate::targets::{BY_SWEEPS, OF_TWO};

/// Whose times stand in the table, each with its name there.
const TIMES: [(Engine, &str); 5] = [
    (Engine::ProvedTwo, "proved, k = 2"),
    (Engine::Proved, "proved, k = 3"),
    (Engine::RustTwo, "Rust, k = 2"),
    (Engine::Rust, "Rust, k = 3"),
    (Engine::Sweeps, "sweeps, k = 3"),
];

/// Whose ratios stand in the table, each with its name there.
const RATIOS: [(Engine, Engine, &str); 4] = [
    (Engine::Proved, Engine::ProvedTwo, "proved, k = 3 / k = 2"),
    (Engine::Rust, Engine::RustTwo, "Rust, k = 3 / k = 2"),
    (Engine::Proved, Engine::Rust, "k = 3, proved / Rust"),
    (Engine::Sweeps, Engine::Proved, "k = 3, sweeps / proved"),
];

/// The section.
pub fn section(channel: &[Row], uniform: &[Row]) -> String {
    format!(
        "## Three deviations\n\nA check with k = 3 beside the same check with k = 2, by the same tables: with k \
         = 2 each column takes three joins of tables, with k = 3 six. A record with k = 3 has d + 7(q - 1) \
         bytes. Asked for: k = 3 takes at most {OF_TWO:.1} times as long as k = 2, and the sweeps with k = 3 at \
         least {BY_SWEEPS:.1} times as long as the proved library from p = 4 up. Costs from the channel, times \
         in microseconds, then ratios.\n\n{}{}![k = 3 by k = 2](three-by-two.svg)\n\nThe same with uniform \
         costs.\n\n{}{}",
        times(channel),
        ratios(channel),
        times(uniform),
        ratios(uniform)
    )
}

/// The times.
fn times(rows: &[Row]) -> String {
    let head = ["p", "d"].into_iter().chain(TIMES.map(|(_, name)| name));
    let cells = rows.iter().map(|row| {
        let times = TIMES.map(|(engine, _)| micros(row.three.median(engine)));
        size(row).into_iter().chain(times).collect()
    });
    table(&head.collect::<Vec<_>>(), cells)
}

/// The ratios.
fn ratios(rows: &[Row]) -> String {
    let head = ["p", "d"]
        .into_iter()
        .chain(RATIOS.map(|(_, _, name)| name));
    let cells = rows.iter().map(|row| {
        let ratios = RATIOS.map(|(one, other, _)| quotient(&row.three, one, other));
        size(row).into_iter().chain(ratios).collect()
    });
    table(&head.collect::<Vec<_>>(), cells)
}

/// p and d.
pub fn size(row: &Row) -> [String; 2] {
    [row.p.to_string(), row.degree.to_string()]
}
