//! The section about two blows for one word.

use super::curves::{self, Line};
use super::rate;
use crate::blows::Blows;
use crate::chart::{Chart, Stroke, COLOURS};
use crate::plan::{COSTS_PER_NAT, LIMIT};
use crate::tally::Tally;
use crate::trial::Count;

/// The ways to decode two blows, the better ones first.
const WAYS: [Way; 3] = [
    Way {
        name: "combined",
        stroke: Stroke::Solid,
        tally: |blows| &blows.combined,
    },
    Way {
        name: "better of two",
        stroke: Stroke::Dashed,
        tally: |blows| &blows.either,
    },
    Way {
        name: "one blow",
        stroke: Stroke::Dashed,
        tally: |blows| &blows.one,
    },
];

/// A way to decode two blows.
struct Way {
    name: &'static str,
    stroke: Stroke,
    tally: fn(&Blows) -> &Tally,
}

impl Way {
    /// The counts of this way, over Eb/N0.
    fn counts(&self, all: &[Blows]) -> Vec<Count> {
        let count = |blows: &Blows| Count {
            decibels: blows.decibels,
            setup: blows.setup,
            tally: *(self.tally)(blows),
        };
        all.iter().map(count).collect()
    }
}

/// The section.
pub fn section(all: &[Blows]) -> String {
    let g = all[0].setup.g;
    let parts = [
        format!(
            "## Two blows for one word\n\nCrews strike twice and the box sends the same symbols again, over noise of its \
             own. One blow: the first frame decoded alone. Better of two: where the first is not found, the second is \
             decoded alone too; the word counts as found by either, with the iterations of both. Combined: both frames \
             through `petsivola_combine`, and the result decoded once. All on the same noise, the proved decoder with k = \
             2, the sum and g = {g}, costs per nat {COSTS_PER_NAT}, iteration limit {LIMIT}. Eb/N0 is that of one blow. Two \
             of them bring twice the energy, 3.01 dB more: but for rounding and the cap, the combined frame is that of one \
             blow so much stronger.\n\n\
             ![Frame error rate with two blows](two-blows.svg)\n\n"
        ),
        table(all),
        distances(all),
    ];
    parts.concat()
}

/// Each way at each Eb/N0.
fn table(all: &[Blows]) -> String {
    let mut table = String::from(
        "| Eb/N0, dB | decoded | frames | frame errors | frame error rate | interval | not found | found wrong | mean \
         iterations |\n|---:|---|---:|---:|---:|---|---:|---:|---:|\n",
    );
    for blows in all {
        for way in &WAYS {
            let tally = (way.tally)(blows);
            let (low, high) = tally.interval();
            table += &format!(
                "| {:.2} | {} | {} | {} | {} | {} to {} | {} | {} | {:.2} |\n",
                blows.decibels,
                way.name,
                tally.frames,
                tally.frame_errors(),
                rate(tally.frame_error_rate()),
                rate(low),
                rate(high),
                tally.not_found,
                tally.wrong,
                tally.mean_iterations(),
            );
        }
    }
    table + "\n"
}

/// How far apart the ways are.
fn distances(all: &[Blows]) -> String {
    let lines = WAYS.each_ref().map(|way| (way.name, way.counts(all)));
    let lines = lines.each_ref();
    curves::distances(&lines.map(|(name, counts)| (*name, counts.as_slice())))
}

/// The frame error rates as a chart.
pub fn chart(all: &[Blows]) -> Chart {
    let line = |(way, colour): (&Way, &'static str)| Line {
        name: way.name.to_string(),
        colour,
        stroke: way.stroke,
        counts: way.counts(all),
    };
    let lines: Vec<Line> = WAYS.iter().zip(COLOURS).map(line).collect();
    curves::chart("Two blows, (248,137) code over GF(32)", &lines)
}
