//! The charts that a run writes.

use simulate::chart::{Axis, Chart, Point, Series, Stroke, COLOURS};

use crate::checks::{Row, DEGREES, PS};
use crate::engines::Engine;
use crate::targets::{OF_C, OF_RUST, OF_SUM, OF_TWO};

/// Whose times are drawn, and how.
const TIMES: [(Engine, Stroke); 3] = [
    (Engine::Proved, Stroke::Solid),
    (Engine::Rust, Stroke::Dotted),
    (Engine::Sse2, Stroke::Dashed),
];

/// Time per check against d, for every p.
pub fn time_per_check(rows: &[Row]) -> Chart {
    let times = rows
        .iter()
        .flat_map(|row| TIMES.map(|(engine, _)| micros(row, engine)));
    let series = TIMES.iter().flat_map(|&(engine, stroke)| {
        let of_p = move |(p, colour)| {
            let name = format!("{}, p = {p}", engine.name());
            series(rows, name, p, colour, stroke, |row| micros(row, engine))
        };
        PS.into_iter().zip(COLOURS).rev().map(of_p)
    });
    Chart {
        title: "Time per check".to_string(),
        x: degrees(),
        y: Axis::decades("microseconds", times),
        series: series.collect(),
        level: None,
    }
}

/// The proved library's time per check by that of the same algorithm in Rust.
pub fn ratio_to_rust(rows: &[Row]) -> Chart {
    let level = (OF_RUST, format!("target: at most {OF_RUST:.1}"));
    let title = "Time per check: proved library by the same algorithm in Rust";
    let of_row = |row: &Row| row.check.ratio(Engine::Proved, Engine::Rust);
    ratio(rows, title, of_row, level)
}

/// The proved library's time per check by that of the same algorithm by hand in C.
pub fn ratio_to_c(rows: &[Row]) -> Chart {
    let level = (
        OF_C,
        format!("target, p from 4 up, d to 8: at most {OF_C:.1}"),
    );
    let title = "Time per check: proved library by the same by hand in C (SSE2)";
    let of_row = |row: &Row| row.check.ratio(Engine::Proved, Engine::Sse2);
    ratio(rows, title, of_row, level)
}

/// The proved library's time per check with k = 3 by that with k = 2.
pub fn three_by_two(rows: &[Row]) -> Chart {
    let level = (OF_TWO, format!("target: at most {OF_TWO:.1}"));
    let title = "Time per check: proved library with k = 3 by k = 2";
    let of_row = |row: &Row| row.three.ratio(Engine::Proved, Engine::ProvedTwo);
    ratio(rows, title, of_row, level)
}

/// The proved library's time per check of the Min-Max edition by that with the sum, dashed with k = 3.
pub fn min_max_by_sum(rows: &[Row]) -> Chart {
    let level = (OF_SUM, format!("target: at most {OF_SUM:.1}"));
    let title = "Time per check: proved library, Min-Max by sum";
    let lines = [
        Line {
            name: ", k = 2",
            stroke: Stroke::Solid,
            ratio: &|row| row.min_max_by_sum(2),
        },
        Line {
            name: ", k = 3",
            stroke: Stroke::Dashed,
            ratio: &|row| row.min_max_by_sum(3),
        },
    ];
    ratios(rows, title, &lines, level)
}

/// A ratio against d, for every p.
fn ratio(rows: &[Row], title: &str, ratio: impl Fn(&Row) -> f64, level: (f64, String)) -> Chart {
    let line = Line {
        name: "",
        stroke: Stroke::Solid,
        ratio: &ratio,
    };
    ratios(rows, title, &[line], level)
}

/// A ratio that is drawn for every p.
struct Line<'a> {
    /// Its name in the legend, behind p.
    name: &'a str,
    stroke: Stroke,
    ratio: &'a dyn Fn(&Row) -> f64,
}

/// Ratios against d, each for every p.
fn ratios(rows: &[Row], title: &str, lines: &[Line], level: (f64, String)) -> Chart {
    let all = lines.iter().flat_map(|line| rows.iter().map(line.ratio));
    let high = all.fold(1.25 * level.0, f64::max);
    let step = if high <= 2.0 {
        0.25
    } else {
        (high / 8.0).ceil()
    };
    let of_line = |line: &Line| {
        let of_p = |(p, colour)| {
            let name = format!("p = {p}{}", line.name);
            series(rows, name, p, colour, line.stroke, line.ratio)
        };
        PS.into_iter().zip(COLOURS).map(of_p).collect::<Vec<_>>()
    };
    Chart {
        title: title.to_string(),
        x: degrees(),
        y: Axis::linear("ratio", 0.0, (high / step).ceil() * step, step),
        series: lines.iter().flat_map(of_line).collect(),
        level: Some(level),
    }
}

/// An engine's time for a check.
fn micros(row: &Row, engine: Engine) -> f64 {
    row.check.median(engine) * 1e6
}

/// The axis of d.
fn degrees() -> Axis {
    Axis::marked("degree d", &DEGREES.map(|degree| degree as f64))
}

/// The line of one p.
fn series(
    rows: &[Row],
    name: String,
    p: u8,
    colour: &'static str,
    stroke: Stroke,
    number: impl Fn(&Row) -> f64,
) -> Series {
    let rows = rows.iter().filter(|row| row.p == p);
    Series {
        name,
        colour,
        stroke,
        points: rows
            .map(|row| Point::new(row.degree as f64, number(row)))
            .collect(),
    }
}
