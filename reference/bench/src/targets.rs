//! What is asked of the figures, and whether a run meets it.

use crate::engines::Engine;
use crate::inputs::{AT_THE_LIMITS, SIMULATED};
use crate::{checks, decoding, early};

/// The most that a check, and an iteration, may take of the time of the same algorithm in Rust.
pub const OF_RUST: f64 = 1.0;
/// The most that a check may take of the time of the same algorithm by hand in C with SSE2, where this is
/// asked.
pub const OF_C: f64 = 2.5;
/// The most that a check with k = 3 may take of the time with k = 2.
pub const OF_TWO: f64 = 2.0;
/// The most that a check of the Min-Max edition may take of the time with the sum.
pub const OF_SUM: f64 = 1.1;
/// The most that a decoding through the register window may take of the time of one `decode`, where this is asked.
pub const OF_DECODE: f64 = 1.15;
/// The most that eight channels with an allowance that is enough may take of the time of eight `decode`.
pub const OF_EIGHT: f64 = 1.05;
/// The most that a check update of `decode_early` may take of the time of one of `decode`, where this is asked.
pub const OF_UPDATE: f64 = 1.1;
/// The least that the sweeps may take of the time of a check with k = 3, where this is asked.
pub const BY_SWEEPS: f64 = 8.0;

/// One target with what was measured.
pub struct Target {
    /// What is asked.
    pub text: String,
    /// The worst number found, and where.
    pub worst: (f64, String),
    /// How many numbers were measured.
    pub measured: usize,
    /// How many of them miss the target.
    pub missed: usize,
}

/// Every target, over all measured checks and codes, those of the register window, of eight channels and of stopping
/// inside an iteration.
pub fn targets(
    checks: &[&checks::Row],
    codes: &[decoding::Row],
    windows: &[decoding::Row],
    channels: &[decoding::Row],
    stopping: &[early::Row],
) -> Vec<Target> {
    let large: Vec<_> = checks.iter().copied().filter(|row| row.p >= 4).collect();
    let short: Vec<_> = large
        .iter()
        .copied()
        .filter(|row| row.degree <= 8)
        .collect();
    let mut targets = vec![
        at_most(
            format!("check: at most {OF_RUST:.1} times the same algorithm in Rust"),
            OF_RUST,
            ratios(checks, |row| row.check.ratio(Engine::Proved, Engine::Rust)),
        ),
        at_most(
            format!(
                "check, up to d = 8 from p = 4 up: at most {OF_C:.1} times the same algorithm by hand in C \
                 with SSE2"
            ),
            OF_C,
            ratios(&short, |row| row.check.ratio(Engine::Proved, Engine::Sse2)),
        ),
    ];
    targets.extend(targets_of_three(checks, &large));
    targets.push(of_min_max(checks));
    targets.push(target_of_decoding(codes));
    targets.push(of_window(windows));
    targets.push(of_channels(channels));
    targets.push(of_early(stopping));
    targets
}

/// The targets of checks with k = 3; the sweeps stand in the second, over the larger fields.
fn targets_of_three(checks: &[&checks::Row], large: &[&checks::Row]) -> [Target; 2] {
    let by_two = |row: &checks::Row| row.three.ratio(Engine::Proved, Engine::ProvedTwo);
    let by_sweeps = |row: &checks::Row| row.three.ratio(Engine::Sweeps, Engine::Proved);
    [
        at_most(
            format!("check with k = 3: at most {OF_TWO:.1} times the same check with k = 2"),
            OF_TWO,
            ratios(checks, by_two),
        ),
        at_least(
            format!("check with k = 3, from p = 4 up: the sweeps take at least {BY_SWEEPS:.1} times as long"),
            BY_SWEEPS,
            ratios(large, by_sweeps),
        ),
    ]
}

/// The target of checks of the Min-Max edition, with both k.
pub fn of_min_max(checks: &[&checks::Row]) -> Target {
    let of_k = |k| {
        let numbers = ratios(checks, |row| row.min_max_by_sum(k)).into_iter();
        numbers.map(move |(ratio, place)| (ratio, format!("k = {k}, {place}")))
    };
    let numbers = checks::DEVIATIONS.into_iter().flat_map(of_k);
    at_most(
        format!(
            "check of the Min-Max edition: at most {OF_SUM:.1} times the same check with the sum"
        ),
        OF_SUM,
        numbers.collect(),
    )
}

/// The target of iterations.
fn target_of_decoding(codes: &[decoding::Row]) -> Target {
    let iterations = codes.iter().map(|row| {
        let ratio = row.decode.ratio(Engine::Proved, Engine::Rust);
        (ratio, row.job.name.to_string())
    });
    at_most(
        format!("decoding: an iteration at most {OF_RUST:.1} times the same algorithm in Rust"),
        OF_RUST,
        iterations.collect(),
    )
}

/// The target of the register window, on the simulation's code.
pub fn of_window(codes: &[decoding::Row]) -> Target {
    let asked = codes.iter().filter(|row| row.job.name == SIMULATED);
    let ratios = asked.map(|row| by_decode(row, Engine::ProvedWindow));
    at_most(
        format!("decoding through the register window: at most {OF_DECODE} times one `decode`"),
        OF_DECODE,
        ratios.collect(),
    )
}

/// The target of eight channels, on every code.
pub fn of_channels(codes: &[decoding::Row]) -> Target {
    let ratios = codes.iter();
    let ratios = ratios.map(|row| by_decode(row, Engine::ProvedChannels));
    at_most(
        format!("eight channels, the allowance enough: at most {OF_EIGHT} times eight `decode`"),
        OF_EIGHT,
        ratios.collect(),
    )
}

/// The target of stopping inside an iteration, on the simulation's code and on that at the limits.
pub fn of_early(codes: &[early::Row]) -> Target {
    let asked = codes
        .iter()
        .filter(|row| [SIMULATED, AT_THE_LIMITS].contains(&row.job.name));
    let ratios = asked.map(|row| (row.of_update(), row.job.name.to_string()));
    at_most(
        format!(
            "stopping inside an iteration: an update at most {OF_UPDATE} times one of `decode`"
        ),
        OF_UPDATE,
        ratios.collect(),
    )
}

/// How many times as long an engine takes as `decode` on a code, with its name.
fn by_decode(row: &decoding::Row, engine: Engine) -> (f64, String) {
    let ratio = row.decode.ratio(engine, Engine::Proved);
    (ratio, row.job.name.to_string())
}

/// A ratio of each row, with its place.
fn ratios(rows: &[&checks::Row], ratio: impl Fn(&checks::Row) -> f64) -> Vec<(f64, String)> {
    let rows = rows.iter();
    rows.map(|row| (ratio(row), format!("p = {}, d = {}", row.p, row.degree)))
        .collect()
}

fn at_most(text: String, limit: f64, numbers: Vec<(f64, String)>) -> Target {
    let missed = numbers.iter().filter(|(number, _)| *number > limit).count();
    let measured = numbers.len();
    let worst = numbers.into_iter().max_by(|a, b| a.0.total_cmp(&b.0));
    Target {
        text,
        worst: worst.expect("something was measured"),
        measured,
        missed,
    }
}

fn at_least(text: String, limit: f64, numbers: Vec<(f64, String)>) -> Target {
    let missed = numbers.iter().filter(|(number, _)| *number < limit).count();
    let measured = numbers.len();
    let worst = numbers.into_iter().min_by(|a, b| a.0.total_cmp(&b.0));
    Target {
        text,
        worst: worst.expect("something was measured"),
        measured,
        missed,
    }
}

#[cfg(test)]
mod tests {
    use super::*;

    fn numbers() -> Vec<(f64, String)> {
        let names = ["a", "b", "c", "d"].map(String::from);
        [8.5, 7.0, 9.0, 8.0].into_iter().zip(names).collect()
    }

    #[test]
    fn the_worst_is_the_greatest_where_a_number_is_at_most() {
        let target = at_most(String::new(), 8.0, numbers());
        assert_eq!(target.worst, (9.0, "c".to_string()));
        assert_eq!((target.missed, target.measured), (2, 4));
    }

    #[test]
    fn the_worst_is_the_least_where_a_number_is_at_least() {
        let target = at_least(String::new(), 8.0, numbers());
        assert_eq!(target.worst, (7.0, "b".to_string()));
        assert_eq!((target.missed, target.measured), (1, 4));
    }
}
