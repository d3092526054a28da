//! The section about the proved library's sweep.

use super::{micros, quotient, table};
use crate::checks::swept::Swept;
use crate::checks::DEVIATIONS;
use crate::engines::Engine;

/// Whose times stand in a table, each with its name there.
const TIMES: [(Engine, &str); 3] = [
    (Engine::ProvedSweep, "proved sweep"),
    (Engine::Proved, "proved check"),
    (Engine::Sweeps, "sweeps (Rust)"),
];

/// Whose ratios stand behind the times, each with its name there.
const RATIOS: [(Engine, Engine, &str); 2] = [
    (
        Engine::ProvedSweep,
        Engine::Proved,
        "proved sweep / proved check",
    ),
    (
        Engine::ProvedSweep,
        Engine::Sweeps,
        "proved sweep / sweeps (Rust)",
    ),
];

/// The section.
pub fn section(rows: &[Swept]) -> String {
    let mut text = format!(
        "## The proved sweep beside the proved check\n\nThe proved library has two calls that write the record of a \
         check. *Proved check* is `petsivola_check`, which is *proved* in every other table and which decoding uses. \
         *Proved sweep* is `petsivola_sweep`, the trellis sweep engine, which can be followed on paper; nothing is \
         asked of its speed. *Sweeps (Rust)* are the textbook sweeps that other tables call *sweeps*: the same kept \
         costs, not proved. {} Costs from the channel and the sum, times in microseconds, then ratios.\n\n",
        statement(rows)
    );
    for (place, k) in DEVIATIONS.into_iter().enumerate() {
        text += &format!("With k = {k}.\n\n{}", times(rows, place));
    }
    text
}

/// How many times as long the sweep takes, at least and at most, and where.
fn statement(rows: &[Swept]) -> String {
    let ratios = rows.iter().flat_map(|row| {
        let place = |k| format!("p = {}, d = {}, k = {k}", row.p, row.degree);
        DEVIATIONS.map(|k| (row.by_check(k), place(k)))
    });
    let mut ratios: Vec<(f64, String)> = ratios.collect();
    ratios.sort_by(|one, other| one.0.total_cmp(&other.0));
    let [Some((least, at_least)), Some((most, at_most))] = [ratios.first(), ratios.last()] else {
        return String::new();
    };
    format!(
        "The proved sweep takes {least:.0} times ({at_least}) to {most:.0} times ({at_most}) as long as the proved \
         check."
    )
}

/// Times and ratios with the k at this place.
fn times(rows: &[Swept], place: usize) -> String {
    let names = TIMES.map(|(_, name)| name).into_iter();
    let names = names.chain(RATIOS.map(|(_, _, name)| name));
    let head: Vec<_> = ["p", "d"].into_iter().chain(names).collect();
    let cells = rows.iter().map(|row| {
        let results = &row.checks[place];
        let times = TIMES.map(|(engine, _)| micros(results.median(engine)));
        let ratios = RATIOS.map(|(one, other, _)| quotient(results, one, other));
        let size = [row.p.to_string(), row.degree.to_string()].into_iter();
        size.chain(times).chain(ratios).collect()
    });
    table(&head, cells)
}
