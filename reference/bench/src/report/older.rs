//! The section about an older library.

use super::{micros, quotient, table, Report};
use crate::engines::{Engine, Results};
use crate::foreign;

/// The proved library beside an older one, where one takes part.
pub fn section(report: &Report) -> String {
    if foreign::old_library().is_none() {
        return String::new();
    }
    let pair = |results: &Results| {
        [
            micros(results.median(Engine::Proved)),
            micros(results.median(Engine::Old)),
            quotient(results, Engine::Proved, Engine::Old),
        ]
    };
    let checks = report
        .channel
        .iter()
        .zip(report.uniform)
        .map(|(row, uniform)| {
            let mut cells = vec![row.p.to_string(), row.degree.to_string()];
            cells.extend(pair(&row.check));
            cells.push(quotient(&uniform.check, Engine::Proved, Engine::Old));
            cells.push(quotient(&row.expand, Engine::Proved, Engine::Old));
            cells
        });
    let codes = report.codes.iter().map(|row| {
        let mut cells = vec![row.job.name.to_string()];
        cells.extend(pair(&row.decode));
        cells
    });
    let sizes = ["p", "d", "new, µs", "old, µs", "new / old"];
    let others = ["uniform costs, new / old", "expansion, new / old"];
    let code = ["code", "new, µs an iteration", "old, µs", "new / old"];
    format!(
        "## The library beside an older one\n\nChecks in the same races, then iterations.\n\n{}{}",
        table(&[&sizes[..], &others].concat(), checks),
        table(&code, codes)
    )
}
