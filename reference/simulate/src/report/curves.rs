//! Frame error rates against Eb/N0: charts, and how far apart the lines of one are.

use crate::chart::{Axis, Chart, Point, Series, Stroke};
use crate::trial::Count;

/// One line of a chart.
pub struct Line {
    /// Its name in the legend.
    pub name: String,
    /// A colour as SVG names it.
    pub colour: &'static str,
    /// How it is drawn.
    pub stroke: Stroke,
    /// Its points, rising in Eb/N0.
    pub counts: Vec<Count>,
}

/// A chart of the lines; points without a frame error are left out.
pub fn chart(title: &str, lines: &[Line]) -> Chart {
    let counts = || lines.iter().flat_map(|line| &line.counts);
    let counted = |count: &&Count| count.tally.frame_errors() > 0;
    let series = |line: &Line| Series {
        name: line.name.clone(),
        colour: line.colour,
        stroke: line.stroke,
        points: line.counts.iter().filter(counted).map(point).collect(),
    };
    let places = || counts().map(|count| count.decibels);
    let low = places().fold(f64::INFINITY, f64::min);
    let high = places().fold(f64::NEG_INFINITY, f64::max);
    // Wider marks where the finer ones would stand too close.
    let step = if high - low > 2.0 { 0.5 } else { 0.25 };
    Chart {
        title: title.to_string(),
        x: Axis::linear("Eb/N0, dB", low, high.max(low + step), step),
        y: Axis::decades(
            "frame error rate",
            counts()
                .filter(counted)
                .map(|count| count.tally.frame_error_rate()),
        ),
        series: lines.iter().map(series).collect(),
        level: None,
    }
}

/// A frame error rate with its interval.
fn point(count: &Count) -> Point {
    Point {
        x: count.decibels,
        y: count.tally.frame_error_rate(),
        bar: Some(count.tally.interval()),
    }
}

/// A point with fewer frame errors says too little about the distance of curves.
const ENOUGH_ERRORS: usize = 10;

/// Where some lines, the better ones first, fall through the rates that all of them reach, and how far each is
/// before each later one.
pub fn distances(lines: &[(&str, &[Count])]) -> String {
    let pairs = || {
        let places = 0..lines.len();
        places.flat_map(|one| (one + 1..lines.len()).map(move |other| (one, other)))
    };
    let mut head = String::from("| frame error rate |");
    for (name, _) in lines {
        head += &format!(" {name}, dB |");
    }
    for (one, other) in pairs() {
        head += &format!(" gain of {} over {}, dB |", lines[one].0, lines[other].0);
    }
    let columns = 1 + lines.len() + pairs().count();
    let mut table = format!(
        "Between the points, on straight lines in the chart:\n\n{head}\n|{}\n",
        "---:|".repeat(columns)
    );
    for rate in [1e-1, 1e-2, 1e-3] {
        let crossings = lines.iter().map(|(_, counts)| crossing(counts, rate));
        if let Some(crossings) = crossings.collect::<Option<Vec<f64>>>() {
            let gains = pairs().map(|(one, other)| crossings[other] - crossings[one]);
            let cells = crossings.iter().copied().chain(gains);
            let cells: Vec<String> = cells.map(|number| format!("{number:.2}")).collect();
            table += &format!("| {rate} | {} |\n", cells.join(" | "));
        }
    }
    table + "\n"
}

/// The Eb/N0 at which a line falls through a frame error rate, between two points with enough frame
/// errors.
fn crossing(counts: &[Count], rate: f64) -> Option<f64> {
    let counted = counts
        .iter()
        .filter(|count| count.tally.frame_errors() >= ENOUGH_ERRORS);
    let points: Vec<(f64, f64)> = counted
        .map(|count| (count.decibels, count.tally.frame_error_rate()))
        .collect();
    let found = points
        .windows(2)
        .find(|pair| pair[0].1 >= rate && rate > pair[1].1)?;
    let ((x, high), (end, low)) = (found[0], found[1]);
    let part = (high / rate).ln() / (high / low).ln();
    Some(x + part * (end - x))
}
