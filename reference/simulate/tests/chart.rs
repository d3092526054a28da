//! The charts.

use simulate::chart::{Axis, Chart, Point, Series, Stroke};

fn chart() -> Chart {
    let series = |name: &str, stroke| Series {
        name: name.to_string(),
        colour: "#0072b2",
        stroke,
        points: vec![Point::new(1.0, 0.5), Point::new(2.0, 0.004)],
    };
    Chart {
        title: "a < b & c".to_string(),
        x: Axis::linear("x", 1.0, 2.0, 0.5),
        y: Axis::decades("y", [0.5, 0.004]),
        series: vec![series("one", Stroke::Solid), series("two", Stroke::Dashed)],
        level: Some((0.1, "level".to_string())),
    }
}

#[test]
fn every_series_is_drawn_and_named() {
    let svg = chart().svg();
    assert_eq!(svg.matches("<polyline").count(), 2);
    for text in [
        "one",
        "two",
        "level",
        "a &lt; b &amp; c",
        ">0.001<",
        ">1.5<",
    ] {
        assert!(svg.contains(text), "{text}");
    }
    assert_eq!(svg.matches("<text").count(), svg.matches("</text>").count());
}

#[test]
fn places_on_the_axes() {
    let chart = chart();
    assert_eq!(chart.x.place(1.5), 0.5);
    assert_eq!(chart.x.place(9.0), 1.0);
    // Three decades, from 0.001 to 1.
    assert!((chart.y.place(0.1) - 2.0 / 3.0).abs() < 1e-9);
    let marked = Axis::marked("d", &[4.0, 8.0, 16.0]);
    let steps = marked.place(8.0) - marked.place(4.0) - (marked.place(16.0) - marked.place(8.0));
    assert!(steps.abs() < 1e-9);
}
