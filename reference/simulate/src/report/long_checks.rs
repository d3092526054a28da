//! The section about long checks with two and with three deviations.

use petsivola::Edition;

use super::curves::{self, Line};
use super::{of_rule, rate, table};
use crate::chart::{Chart, Stroke, COLOURS};
use crate::long_checks::{LongChecks, DEVIATIONS};
use crate::plan::COSTS_PER_NAT;
use crate::sweep::Sweep;
use crate::trial::{Count, Rule};

/// The section.
pub fn section(codes: &[LongChecks]) -> String {
    let mut text = format!(
        "## Long checks: two and three deviations\n\nCodes over GF(64) with checks of degree 24 and 32 and columns \
         in four checks; the edges have random weights. The proved decoder with the sum, k = 2 and k = 3 on the \
         same frames, costs per nat {COSTS_PER_NAT}. In the curves each k has its best g of the sweep below, the \
         smallest where several are equal.\n\n![Frame error rate with long checks](long-checks.svg)\n\n"
    );
    text += &shapes(codes);
    for code in codes {
        text += &format!("### Degree {}\n\n", degree(code));
        text += &table(&code.curve);
        let [two, three] = DEVIATIONS.map(|k| of_rule(&code.curve, Rule::Proved(k, Edition::Sum)));
        text += &curves::distances(&[("k = 3", &three), ("k = 2", &two)]);
        text += &sweeps(&code.sweeps);
    }
    text
}

/// The frame error rates as a chart: a colour for each code, dashed with k = 2.
pub fn chart(codes: &[LongChecks]) -> Chart {
    let lines = codes.iter().zip(COLOURS).flat_map(|(code, colour)| {
        let strokes = DEVIATIONS.into_iter().zip([Stroke::Dashed, Stroke::Solid]);
        strokes
            .zip(&code.sweeps)
            .map(move |((k, stroke), sweep)| Line {
                name: format!("degree {}, k = {k}, g = {}", degree(code), best_g(sweep)),
                colour,
                stroke,
                counts: of_rule(&code.curve, Rule::Proved(k, Edition::Sum)),
            })
    });
    let title = "Long checks over GF(64), BPSK, white noise";
    curves::chart(title, &lines.collect::<Vec<_>>())
}

fn degree(code: &LongChecks) -> usize {
    code.sweeps[0].shape.degree
}

/// The g of the curve.
fn best_g(sweep: &Sweep) -> u8 {
    sweep.best()[0].setup.g
}

/// The codes, each with the best g for either k.
fn shapes(codes: &[LongChecks]) -> String {
    let mut table = String::from(
        "| degree | column weight | symbols | free | checks | edges | best g, k = 2 | best g, k = 3 |\n\
         |---:|---:|---:|---:|---:|---:|---:|---:|\n",
    );
    for code in codes {
        let shape = &code.sweeps[0].shape;
        let [two, three] = code.sweeps.each_ref().map(best_g);
        table += &format!(
            "| {} | {} | {} | {} | {} | {} | {two} | {three} |\n",
            shape.degree,
            shape.weight,
            shape.columns,
            shape.free,
            shape.checks,
            shape.checks * shape.degree,
        );
    }
    table + "\n"
}

/// The sweep over g, a row for each g.
fn sweeps([two, three]: &[Sweep; 2]) -> String {
    let first = &two.counts[0];
    let mut table = format!(
        "Sweep over g at {:.2} dB, {} frames:\n\n\
         | g | k = 2: frame errors | interval | k = 3: frame errors | interval |\n|---:|---:|---|---:|---|\n",
        first.decibels, first.tally.frames
    );
    for (two, three) in two.counts.iter().zip(&three.counts) {
        let [two_cells, three_cells] = [two, three].map(cells);
        table += &format!("| {} | {two_cells} | {three_cells} |\n", two.setup.g);
    }
    table + "\n"
}

/// The frame errors of one count, and the interval of their rate.
fn cells(count: &Count) -> String {
    let (low, high) = count.tally.interval();
    let errors = count.tally.frame_errors();
    format!("{errors} | {} to {}", rate(low), rate(high))
}
