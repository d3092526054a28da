//! The SVG text of a chart.

use std::fmt::Write;

use super::{Axis, Chart, Series, Stroke};

const WIDTH: f64 = 820.0;
const HEIGHT: f64 = 500.0;
/// The frame of the drawing: left, right, top and bottom edge.
const LEFT: f64 = 80.0;
const RIGHT: f64 = 590.0;
const TOP: f64 = 50.0;
const BOTTOM: f64 = 430.0;
const LEGEND_STEP: f64 = 22.0;

/// The whole document.
pub fn document(chart: &Chart) -> String {
    let mut svg = format!(
        "<svg xmlns=\"http://www.w3.org/2000/svg\" viewBox=\"0 0 {WIDTH} {HEIGHT}\" \
         font-family=\"sans-serif\" font-size=\"13\">\n\
         <rect width=\"{WIDTH}\" height=\"{HEIGHT}\" fill=\"white\"/>\n"
    );
    let middle = (LEFT + RIGHT) / 2.0;
    svg += &text(middle, 28.0, "middle", 16, &chart.title);
    for (number, name) in &chart.x.ticks {
        let x = across(&chart.x, *number);
        svg += &grid([x, TOP, x, BOTTOM], name);
        svg += &text(x, BOTTOM + 18.0, "middle", 13, name);
    }
    for (number, name) in &chart.y.ticks {
        let y = upwards(&chart.y, *number);
        svg += &grid([LEFT, y, RIGHT, y], name);
        svg += &text(LEFT - 8.0, y + 4.0, "end", 13, name);
    }
    svg += &text(middle, BOTTOM + 46.0, "middle", 14, &chart.x.label);
    let height = (TOP + BOTTOM) / 2.0;
    let label = text(0.0, 0.0, "middle", 14, &chart.y.label);
    put(
        &mut svg,
        format_args!("<g transform=\"translate(22 {height}) rotate(-90)\">{label}</g>\n"),
    );
    put(
        &mut svg,
        format_args!(
            "<rect x=\"{LEFT}\" y=\"{TOP}\" width=\"{}\" height=\"{}\" fill=\"none\" \
             stroke=\"#333\"/>\n",
            RIGHT - LEFT,
            BOTTOM - TOP
        ),
    );
    if let Some((number, name)) = &chart.level {
        let y = upwards(&chart.y, *number);
        svg += &line(
            [LEFT, y, RIGHT, y],
            "#333",
            "stroke-dasharray=\"2 4\" stroke-width=\"1.5\"",
        );
        svg += &text(RIGHT - 6.0, y - 6.0, "end", 12, name);
    }
    for (index, series) in chart.series.iter().enumerate() {
        svg += &drawn(chart, series);
        svg += &legend(index, series);
    }
    svg + "</svg>\n"
}

/// Where a number stands on the horizontal axis.
fn across(axis: &Axis, number: f64) -> f64 {
    LEFT + axis.place(number) * (RIGHT - LEFT)
}

/// Where a number stands on the vertical axis.
fn upwards(axis: &Axis, number: f64) -> f64 {
    BOTTOM - axis.place(number) * (BOTTOM - TOP)
}

/// The line, the error bars and the marks of a series.
fn drawn(chart: &Chart, series: &Series) -> String {
    let places: Vec<(f64, f64)> = series
        .points
        .iter()
        .map(|point| (across(&chart.x, point.x), upwards(&chart.y, point.y)))
        .collect();
    let mut svg = String::new();
    let corners: Vec<String> = places
        .iter()
        .map(|(x, y)| format!("{x:.1},{y:.1}"))
        .collect();
    put(
        &mut svg,
        format_args!(
            "<polyline points=\"{}\" fill=\"none\" stroke=\"{}\" {}/>\n",
            corners.join(" "),
            series.colour,
            pattern(series.stroke)
        ),
    );
    for (point, &(x, y)) in series.points.iter().zip(&places) {
        if let Some((low, high)) = point.bar {
            let (low, high) = (upwards(&chart.y, low), upwards(&chart.y, high));
            svg += &line([x, low, x, high], series.colour, "stroke-width=\"1\"");
        }
        svg += &mark(x, y, series);
    }
    svg
}

/// One entry of the legend.
fn legend(index: usize, series: &Series) -> String {
    let (x, y) = (RIGHT + 16.0, TOP + 12.0 + LEGEND_STEP * index as f64);
    line([x, y, x + 30.0, y], series.colour, pattern(series.stroke))
        + &mark(x + 15.0, y, series)
        + &text(x + 38.0, y + 4.0, "start", 12, &series.name)
}

/// The attributes of a stroke.
fn pattern(stroke: Stroke) -> &'static str {
    match stroke {
        Stroke::Solid => "stroke-width=\"2\"",
        Stroke::Dashed => "stroke-width=\"1.5\" stroke-dasharray=\"6 4\"",
        Stroke::Dotted => "stroke-width=\"1.5\" stroke-dasharray=\"1.5 3\"",
    }
}

/// The mark of a point.
fn mark(x: f64, y: f64, series: &Series) -> String {
    let fill = match series.stroke {
        Stroke::Solid => series.colour,
        Stroke::Dashed => "white",
        Stroke::Dotted => return String::new(),
    };
    let colour = series.colour;
    format!(
        "<circle cx=\"{x:.1}\" cy=\"{y:.1}\" r=\"3.5\" fill=\"{fill}\" stroke=\"{colour}\" \
         stroke-width=\"1.5\"/>\n"
    )
}

/// A line of the grid, fainter where its number has no text.
fn grid(ends: [f64; 4], name: &str) -> String {
    let colour = if name.is_empty() { "#eee" } else { "#ccc" };
    line(ends, colour, "stroke-width=\"1\"")
}

/// A line from x1, y1 to x2, y2.
fn line([x1, y1, x2, y2]: [f64; 4], colour: &str, attributes: &str) -> String {
    format!(
        "<line x1=\"{x1:.1}\" y1=\"{y1:.1}\" x2=\"{x2:.1}\" y2=\"{y2:.1}\" stroke=\"{colour}\" \
         {attributes}/>\n"
    )
}

/// A text at a place; nothing for an empty one.
fn text(x: f64, y: f64, anchor: &str, size: u8, content: &str) -> String {
    if content.is_empty() {
        return String::new();
    }
    let content = content.replace('&', "&amp;").replace('<', "&lt;");
    format!(
        "<text x=\"{x:.1}\" y=\"{y:.1}\" text-anchor=\"{anchor}\" font-size=\"{size}\">{content}\
         </text>\n"
    )
}

/// Appends formatted text.
fn put(svg: &mut String, arguments: std::fmt::Arguments) {
    svg.write_fmt(arguments).expect("a string takes all text");
}
