//! The section about checks of the Min-Max edition.

use super::deviations::size;
use super::{micros, quotient, table};
use crate::checks::{Row, DEVIATIONS};
use crate::engines::Engine;
use crate::targets::OF_SUM;

/// Whose times stand in a table, each with its name there.
const TIMES: [(Engine, &str); 4] = [
    (Engine::ProvedSum, "proved, sum"),
    (Engine::Proved, "proved, Min-Max"),
    (Engine::RustSum, "Rust, sum"),
    (Engine::Rust, "Rust, Min-Max"),
];

/// Whose ratios stand behind the times, each with its name there.
const RATIOS: [(Engine, Engine, &str); 3] = [
    (Engine::Proved, Engine::ProvedSum, "proved, Min-Max / sum"),
    (Engine::Rust, Engine::RustSum, "Rust, Min-Max / sum"),
    (Engine::Proved, Engine::Rust, "Min-Max, proved / Rust"),
];

/// The section.
pub fn section(channel: &[Row], uniform: &[Row]) -> String {
    let mut text = format!(
        "## Min-Max beside the sum\n\nA check of the Min-Max edition beside the same check with the sum, by the \
         same tables: first bytes with high digit 1 beside 0, and 3 beside 2. Asked for: Min-Max takes at most \
         {OF_SUM:.1} times as long as the sum. Times in microseconds, then ratios.\n\n\
         ![Min-Max by sum](min-max-by-sum.svg)\n\n"
    );
    for (place, k) in DEVIATIONS.into_iter().enumerate() {
        text += &format!(
            "With k = {k}, costs from the channel.\n\n{}With k = {k}, uniform costs.\n\n{}",
            times(channel, place),
            times(uniform, place)
        );
    }
    text
}

/// Times and ratios with the k at this place.
fn times(rows: &[Row], place: usize) -> String {
    let names = TIMES.map(|(_, name)| name).into_iter();
    let names = names.chain(RATIOS.map(|(_, _, name)| name));
    let head: Vec<_> = ["p", "d"].into_iter().chain(names).collect();
    let cells = rows.iter().map(|row| {
        let results = &row.min_max[place];
        let times = TIMES.map(|(engine, _)| micros(results.median(engine)));
        let ratios = RATIOS.map(|(one, other, _)| quotient(results, one, other));
        let size = size(row).into_iter();
        size.chain(times).chain(ratios).collect()
    });
    table(&head, cells)
}
