//! Line charts as SVG, for the documents that the simulation and the benchmark write.

mod axis;
mod svg;

pub use axis::Axis;

/// A point of a series, with the ends of its error bar where it has one.
#[derive(Clone, Copy, Debug, PartialEq)]
pub struct Point {
    /// Its place on the horizontal axis.
    pub x: f64,
    /// Its place on the vertical axis.
    pub y: f64,
    /// The lower and the upper end of the error bar.
    pub bar: Option<(f64, f64)>,
}

impl Point {
    /// A point without an error bar.
    pub fn new(x: f64, y: f64) -> Point {
        Point { x, y, bar: None }
    }
}

/// How the line of a series is drawn.
#[derive(Clone, Copy, Debug, PartialEq, Eq)]
pub enum Stroke {
    /// Without gaps, with filled marks.
    Solid,
    /// In dashes, with open marks.
    Dashed,
    /// In dots, without marks.
    Dotted,
}

/// One line of a chart.
#[derive(Clone, Debug, PartialEq)]
pub struct Series {
    /// The name in the legend.
    pub name: String,
    /// A colour as SVG names it.
    pub colour: &'static str,
    /// How the line is drawn.
    pub stroke: Stroke,
    /// The points, rising in x.
    pub points: Vec<Point>,
}

/// A chart.
#[derive(Clone, Debug, PartialEq)]
pub struct Chart {
    /// The line above the chart.
    pub title: String,
    /// The horizontal axis.
    pub x: Axis,
    /// The vertical axis.
    pub y: Axis,
    /// The lines.
    pub series: Vec<Series>,
    /// A horizontal line across the chart, with its name.
    pub level: Option<(f64, String)>,
}

/// Colours that stay apart in print and for readers who do not tell red from green.
pub const COLOURS: [&str; 6] = [
    "#0072b2", "#d55e00", "#009e73", "#cc79a7", "#e69f00", "#56b4e9",
];

impl Chart {
    /// The chart as an SVG document.
    pub fn svg(&self) -> String {
        svg::document(self)
    }
}
