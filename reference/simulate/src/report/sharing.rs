//! The section about one allowance of iterations for eight channels.

use petsivola::lengths::MOST_CHANNELS;

use super::rate;
use crate::chart::{Axis, Chart, Point, Series, Stroke, COLOURS};
use crate::plan::{COSTS_PER_NAT, LIMIT};
use crate::sharing::{Pair, Sharing, Way, LIMITS};

/// The section.
pub fn section(sharings: &[Sharing]) -> String {
    let g = sharings[0].setup.g;
    let parts = [
        format!(
            "## One allowance for eight channels\n\nA base station that has time for {MOST_CHANNELS} L iterations can give \
             L of them to each of eight frames, or lend them all to one `petsivola_channels` as its allowance, so that \
             what a clean frame leaves goes to a noisy one. Alone: eight times `petsivola_decode` with iteration limit L. \
             Shared: iteration limit {LIMIT} and allowance A = {MOST_CHANNELS} L for the eight. Both on the same noise, the \
             proved decoder with k = 2, the sum and g = {g}, costs per nat {COSTS_PER_NAT}. A frame that is spent is not \
             found.\n\nThe channels are served in turn, so each has its L iterations before any has more than L: a frame \
             that is found alone is found shared too. Frames of one call may be lost together, so the interval, with a \
             confidence of 95 percent, follows the spread between the calls.\n\n"
        ),
        gains(sharings),
        "![Frame error rate with one allowance](one-allowance.svg)\n\n".to_string(),
        table(sharings),
    ];
    parts.concat()
}

/// Where sharing saves the most frames, at each Eb/N0.
fn gains(sharings: &[Sharing]) -> String {
    let gain = |sharing: &Sharing| {
        let best = best(sharing)?;
        let [alone, shared] = [best.alone, best.shared].map(|way| way.tally.frame_errors());
        Some(format!(
            "at {:.2} dB with L = {}, {alone} of {} frames are lost alone and {shared} shared",
            sharing.decibels, best.limit, best.alone.tally.frames
        ))
    };
    let gains: Vec<String> = sharings.iter().filter_map(gain).collect();
    if gains.is_empty() {
        return String::new();
    }
    format!(
        "Where sharing saves the most frames: {}.\n\n",
        gains.join("; ")
    )
}

/// The pair in which sharing saves the most frames, of those in which it saves any. A difference of counts says more
/// than a ratio where few frames are lost.
fn best(sharing: &Sharing) -> Option<&Pair> {
    let lost = |way: &Way| way.tally.frame_errors();
    let saved = |pair: &&Pair| lost(&pair.alone).saturating_sub(lost(&pair.shared));
    let pairs = sharing.pairs.iter();
    pairs.filter(|pair| saved(pair) > 0).max_by_key(saved)
}

/// Both ways with each L, at each Eb/N0.
fn table(sharings: &[Sharing]) -> String {
    let mut table = String::from(
        "| Eb/N0, dB | L | A | frames | alone: frame errors | frame error rate | interval | mean iterations | shared: \
         frame errors | frame error rate | interval | mean iterations |\n\
         |---:|---:|---:|---:|---:|---:|---|---:|---:|---:|---|---:|\n",
    );
    for sharing in sharings {
        for pair in &sharing.pairs {
            let [alone, shared] = [&pair.alone, &pair.shared].map(cells);
            table += &format!(
                "| {:.2} | {} | {} | {} | {alone} | {shared} |\n",
                sharing.decibels,
                pair.limit,
                MOST_CHANNELS * usize::from(pair.limit),
                pair.alone.tally.frames,
            );
        }
    }
    table + "\n"
}

/// Frame errors, their rate with its interval, and the mean iterations of one way.
fn cells(way: &Way) -> String {
    let interval = match way.interval() {
        Some((low, high)) => format!("{} to {}", rate(low), rate(high)),
        None => "-".to_string(),
    };
    format!(
        "{} | {} | {interval} | {:.2}",
        way.tally.frame_errors(),
        rate(way.tally.frame_error_rate()),
        way.tally.mean_iterations(),
    )
}

/// The frame error rates by L as a chart: a colour for each Eb/N0, dashed alone. Points without a frame error are left
/// out.
pub fn chart(sharings: &[Sharing]) -> Chart {
    let series = |(sharing, colour): (&Sharing, &'static str)| {
        let decibels = sharing.decibels;
        type OfPair = fn(&Pair) -> &Way;
        let ways: [(&str, Stroke, OfPair); 2] = [
            ("alone", Stroke::Dashed, |pair| &pair.alone),
            ("shared", Stroke::Solid, |pair| &pair.shared),
        ];
        ways.map(|(name, stroke, way)| Series {
            name: format!("{decibels:.2} dB, {name}"),
            colour,
            stroke,
            points: sharing
                .pairs
                .iter()
                .filter_map(|pair| point(pair, way(pair)))
                .collect(),
        })
    };
    let series: Vec<Series> = sharings.iter().zip(COLOURS).flat_map(series).collect();
    let points = series.iter().flat_map(|series| &series.points);
    let [low, .., high] = LIMITS.map(f64::from);
    Chart {
        title: "Eight channels, (248,137) code over GF(32)".to_string(),
        x: Axis::linear(
            "L: limit of a frame alone, an eighth of the allowance shared",
            low,
            high,
            1.0,
        ),
        // The axis ends at 1, and has numbers where no frame is lost.
        y: Axis::decades("frame error rate", points.map(|point| point.y).chain([1.0])),
        series,
        level: None,
    }
}

/// The frame error rate of one way with its interval, where a frame is lost.
fn point(pair: &Pair, way: &Way) -> Option<Point> {
    (way.tally.frame_errors() > 0).then(|| Point {
        x: f64::from(pair.limit),
        y: way.tally.frame_error_rate(),
        bar: way.interval(),
    })
}
