//! The section about stopping inside an iteration.

use crate::chart::{Axis, Chart, Point, Series, Stroke, COLOURS};
use crate::early::{Early, Updates};
use crate::plan::{COSTS_PER_NAT, LIMIT};
use crate::tally::Tally;

/// Percent between two marks of the chart.
const STEP: f64 = 5.0;

/// The section.
pub fn section(all: &[Early]) -> String {
    let Early { setup, checks, .. } = all[0];
    let parts = [
        format!(
            "## Stopping inside an iteration\n\n`petsivola_decode` tests its decisions once an iteration, after M = {checks} \
             check updates; `petsivola_decode_early` after each update, and stops as soon as they satisfy every check. Both \
             on the same frames, the proved decoder with k = 2, the sum and g = {}, costs per nat {COSTS_PER_NAT}, iteration \
             limit {LIMIT}. Saved is the part of the updates of `decode` that `decode_early` does not make, of all frames \
             together and of those that both find; a frame that neither finds takes M times {LIMIT} updates in both. \
             Updates stand for the energy of a call. One of `decode_early` takes a little longer (`docs/bench`), so that a \
             call takes less time only where more than that is saved. The interval, with a confidence of 95 percent, \
             follows the spread between the frames.\n\n",
            setup.g
        ),
        conclusion(all),
        "![Check updates saved](updates-saved.svg)\n\n".to_string(),
        updates(all),
        frames(all),
    ];
    parts.concat()
}

/// What is saved, and what becomes of the frames.
pub fn conclusion(all: &[Early]) -> String {
    let percent = |early: &Early| {
        let saved = early.all.saved().map_or(0.0, |(saved, _)| saved);
        format!("{:.1} percent at {:.2} dB", 100.0 * saved, early.decibels)
    };
    let frames = |count: fn(&Early) -> usize| match all.iter().map(count).sum() {
        0 => "none".to_string(),
        frames => frames.to_string(),
    };
    format!(
        "Of all updates `decode_early` saves {} and {}{}; of {} frames it finds {} that `decode` does not and loses {} that \
         `decode` finds, both find {} as different words, and found wrong are {} by `decode` and {} by `decode_early`.\n\n",
        percent(&all[0]),
        percent(&all[all.len() - 1]),
        on_a_frame(all),
        frames(|early| early.all.frames),
        frames(|early| early.early_alone),
        frames(|early| early.decode_alone),
        frames(|early| early.differing),
        frames(|early| early.decode.wrong),
        frames(|early| early.early.wrong),
    )
}

/// From where to where the means of what is saved on a frame that both calls find lie, where there are such frames.
fn on_a_frame(all: &[Early]) -> String {
    let found = all.iter().filter(|early| early.found.frames > 0);
    let means = found.map(|early| {
        let saved = early.found.of_decode() - early.found.of_early();
        let saved = saved as f64 / early.found.frames as f64;
        (saved, saved / early.checks as f64)
    });
    let mut means: Vec<(f64, f64)> = means.collect();
    means.sort_by(|one, other| one.0.total_cmp(&other.0));
    let (Some((low, low_part)), Some((high, high_part))) = (means.first(), means.last()) else {
        return String::new();
    };
    format!(
        ", on a frame that both find {low:.0} to {high:.0} updates, {low_part:.2} to {high_part:.2} of an iteration"
    )
}

/// The updates of all frames and of those that both calls find, at each Eb/N0.
fn updates(all: &[Early]) -> String {
    let mut table = String::from(
        "| Eb/N0, dB | all frames | `decode`: mean updates | `decode_early`: mean updates | saved | interval | frames that \
         both find | `decode`: mean updates | `decode_early`: mean updates | saved | interval |\n\
         |---:|---:|---:|---:|---:|---|---:|---:|---:|---:|---|\n",
    );
    for early in all {
        let [all, found] = [&early.all, &early.found].map(cells);
        table += &format!("| {:.2} | {all} | {found} |\n", early.decibels);
    }
    table + "\n"
}

/// Frames, the mean updates of both calls, and the part that is saved with its interval.
fn cells(updates: &Updates) -> String {
    let mean = |updates_of: usize| match updates.frames {
        0 => "-".to_string(),
        frames => format!("{:.1}", updates_of as f64 / frames as f64),
    };
    let saved = match updates.saved() {
        Some((saved, (low, high))) => {
            let [saved, low, high] = [saved, low, high].map(|part| 100.0 * part);
            format!("{saved:.1} % | {low:.1} % to {high:.1} %")
        }
        None => "- | -".to_string(),
    };
    format!(
        "{} | {} | {} | {saved}",
        updates.frames,
        mean(updates.of_decode()),
        mean(updates.of_early()),
    )
}

/// What became of the frames, at each Eb/N0.
fn frames(all: &[Early]) -> String {
    let mut table = String::from(
        "Updates for each right word are those of all frames, lost ones too, divided by the frames found right.\n\n\
         | Eb/N0, dB | `decode`: not found | found wrong | updates for each right word | `decode_early`: not found | found \
         wrong | updates for each right word | found by `decode_early` alone | found by `decode` alone | found as different \
         words |\n|---:|---:|---:|---:|---:|---:|---:|---:|---:|---:|\n",
    );
    for early in all {
        let decode = outcomes(&early.decode, early.all.of_decode());
        let by_early = outcomes(&early.early, early.all.of_early());
        table += &format!(
            "| {:.2} | {decode} | {by_early} | {} | {} | {} |\n",
            early.decibels, early.early_alone, early.decode_alone, early.differing,
        );
    }
    table + "\n"
}

/// Frames not found and found wrong, and the updates for each right word, by one call.
fn outcomes(tally: &Tally, updates: usize) -> String {
    let of_word = match tally.frames - tally.frame_errors() {
        0 => "-".to_string(),
        right => format!("{:.0}", updates as f64 / right as f64),
    };
    format!("{} | {} | {of_word}", tally.not_found, tally.wrong)
}

/// The part of the updates that is saved as a chart, in percent.
pub fn chart(all: &[Early]) -> Chart {
    type OfEarly = fn(&Early) -> &Updates;
    let kinds: [(&str, Stroke, OfEarly); 2] = [
        ("frames that both find", Stroke::Dashed, |early| {
            &early.found
        }),
        ("all frames", Stroke::Solid, |early| &early.all),
    ];
    let series = kinds.into_iter().zip(COLOURS);
    let series = series.map(|((name, stroke, updates), colour)| Series {
        name: name.to_string(),
        colour,
        stroke,
        points: all
            .iter()
            .filter_map(|early| point(early, updates(early)))
            .collect(),
    });
    let series: Vec<Series> = series.collect();
    let ends = series.iter().flat_map(|series| &series.points);
    let ends = ends.filter_map(|point| point.bar);
    let most = ends.fold(STEP, |most, (_, high)| most.max(high));
    let (low, high) = (all[0].decibels, all[all.len() - 1].decibels);
    Chart {
        title: "Stopping inside an iteration, (248,137) code over GF(32)".to_string(),
        x: Axis::linear("Eb/N0, dB", low, high.max(low + 0.25), 0.25),
        y: Axis::linear(
            "check updates saved, percent",
            0.0,
            (most / STEP).ceil() * STEP,
            STEP,
        ),
        series,
        level: None,
    }
}

/// The part that is saved with its interval, in percent.
fn point(early: &Early, updates: &Updates) -> Option<Point> {
    let (saved, (low, high)) = updates.saved()?;
    Some(Point {
        x: early.decibels,
        y: 100.0 * saved,
        bar: Some((100.0 * low, 100.0 * high)),
    })
}
