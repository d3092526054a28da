//! The section about what a margin is worth.

use super::{rate, table};
use crate::chart::{Axis, Chart, Point, Series, Stroke, COLOURS};
use crate::margins::{Worth, CLASSES};
use crate::plan::COSTS_PER_NAT;
use crate::share::Share;
use crate::trial::Count;

/// The section.
pub fn section(worths: &[Worth]) -> String {
    let parts = [
        format!(
            "## What a margin is worth\n\nHow often a decided symbol is not the one sent, by its margin. The \
             proved decoder alone with k = 2 and the sum at its best g. A margin is a difference of costs, here \
             {COSTS_PER_NAT} to a nat. Wrong symbols come together in a few frames, so the interval, with a \
             confidence of 95 percent, follows the spread between the frames.\n\n"
        ),
        shading(worths),
        "![Wrong symbols by margin](margins.svg)\n\n".to_string(),
        table(&worths.iter().map(count).collect::<Vec<_>>()),
        classes(worths),
    ];
    parts.concat()
}

/// The frames of one Eb/N0.
fn count(worth: &Worth) -> Count {
    Count {
        decibels: worth.decibels,
        setup: worth.setup,
        tally: worth.tally,
    }
}

/// Where to shade, for a picker.
fn shading(worths: &[Worth]) -> String {
    let (symbols, errors) = of_found(worths);
    let [half, tenth] = [0.5, 0.1].map(|level| wrong_up_to(worths, level));
    let [half, tenth] = [half, tenth].map(|classes| match classes.checked_sub(1) {
        Some(last) => format!("with a margin up to {}", CLASSES[last].end()),
        None => "of no margin".to_string(),
    });
    let sure = match CLASSES.get(wrong_somewhere(worths, 0.01)) {
        Some(class) => format!("From a margin of {} on", class.start()),
        None => "At no margin".to_string(),
    };
    format!(
        "Where to shade: of the {symbols} symbols of frames found, whatever their margins, {errors} are wrong, so \
         a shade belongs to frames not found. There, at every Eb/N0 below, at least half of the decisions {half} \
         are wrong, and at least one in ten {tenth}: shade the former dark and the latter lightly. {sure} fewer than \
         one in 100 are wrong, and no shade is needed.\n\n"
    )
}

/// The symbols of frames found, and those of them that are wrong.
fn of_found(worths: &[Worth]) -> (usize, usize) {
    let sum = |count: fn(&Share) -> usize| {
        let of = |shares: &[Share]| shares.iter().map(count).sum::<usize>();
        let found = |worth: &Worth| of(&worth.all) - of(&worth.not_found);
        worths.iter().map(found).sum()
    };
    (sum(|share| share.symbols), sum(|share| share.errors))
}

/// The rates of a class in frames not found, where there are symbols of it.
fn rates(worths: &[Worth], class: usize) -> impl Iterator<Item = f64> + '_ {
    let shares = worths.iter().map(move |worth| &worth.not_found[class]);
    shares.filter_map(Share::rate)
}

/// How many classes, from the first on, are wrong this often at every Eb/N0.
pub fn wrong_up_to(worths: &[Worth], level: f64) -> usize {
    let wrong = |class: &usize| {
        let mut rates = rates(worths, *class).peekable();
        rates.peek().is_some() && rates.all(|rate| rate >= level)
    };
    (0..CLASSES.len()).take_while(wrong).count()
}

/// How many classes, from the first on, there are up to the last one that is wrong this often at some Eb/N0.
pub fn wrong_somewhere(worths: &[Worth], level: f64) -> usize {
    let wrong = |class: &usize| rates(worths, *class).any(|rate| rate >= level);
    (0..CLASSES.len()).rfind(wrong).map_or(0, |last| last + 1)
}

/// The classes at each Eb/N0.
fn classes(worths: &[Worth]) -> String {
    let mut table = String::from(
        "| Eb/N0, dB | margin | not found: symbols | wrong | error rate | interval | all frames: symbols | wrong | \
         error rate | interval |\n|---:|---:|---:|---:|---:|---|---:|---:|---:|---|\n",
    );
    for worth in worths {
        for (class, (not_found, all)) in CLASSES.iter().zip(worth.not_found.iter().zip(&worth.all))
        {
            let name = match (class.start(), class.end()) {
                (one, last) if one == last => one.to_string(),
                (first, last) => format!("{first} to {last}"),
            };
            let [not_found, all] = [not_found, all].map(cells);
            table += &format!("| {:.2} | {name} | {not_found} | {all} |\n", worth.decibels);
        }
    }
    table + "\n"
}

/// Symbols, those that are wrong, their rate and its interval.
fn cells(share: &Share) -> String {
    let counts = format!("{} | {}", share.symbols, share.errors);
    match share.rate().zip(share.interval()) {
        Some((part, (low, high))) => {
            format!(
                "{counts} | {} | {} to {}",
                rate(part),
                rate(low),
                rate(high)
            )
        }
        None => format!("{counts} | - | -"),
    }
}

/// The error rates as a chart: a colour for each Eb/N0, dashed for all frames. Classes without an error are left
/// out.
pub fn chart(worths: &[Worth]) -> Chart {
    let series = |(worth, colour): (&Worth, &'static str)| {
        let kinds = [
            ("not found", Stroke::Solid, worth.not_found),
            ("all frames", Stroke::Dashed, worth.all),
        ];
        let decibels = worth.decibels;
        kinds.map(|(kind, stroke, shares)| Series {
            name: format!("{decibels:.2} dB, {kind}"),
            colour,
            stroke,
            points: (0..).zip(&shares).filter_map(point).collect(),
        })
    };
    let series: Vec<Series> = worths.iter().zip(COLOURS).flat_map(series).collect();
    let points = series.iter().flat_map(|series| &series.points);
    let names = CLASSES.map(|class| class.start().to_string());
    Chart {
        title: "Wrong symbols by margin, (248,137) code over GF(32)".to_string(),
        x: Axis::named("margin, from this number to below the next", &names),
        // The axis ends at 1, and has numbers where no symbol is wrong.
        y: Axis::decades(
            "error rate of decided symbols",
            points.map(|point| point.y).chain([1.0]),
        ),
        series,
        level: None,
    }
}

/// The rate of a class with its interval, where a symbol is wrong.
fn point((class, share): (u16, &Share)) -> Option<Point> {
    let (y, bar) = share.rate().zip(share.interval())?;
    (share.errors > 0).then_some(Point {
        x: f64::from(class),
        y,
        bar: Some(bar),
    })
}
