//! The Markdown document and the charts that a run writes.

mod blows;
mod curves;
mod early;
mod long_checks;
mod margins;
mod sharing;
mod weights;

use petsivola::Edition;

use crate::chart::{Chart, Stroke, COLOURS};
use crate::encoder::Encoder;
use crate::plan::{best_g, Plan, Results, COSTS_PER_NAT, LIMIT, RULES};
use crate::trial::{Count, Rule};
pub use blows::chart as chart_of_blows;
use curves::Line;
pub use early::{chart as chart_of_early, conclusion as conclusion_of_early};
pub use long_checks::chart as chart_of_long_checks;
pub use margins::{chart as chart_of_margins, wrong_somewhere, wrong_up_to};
pub use sharing::chart as chart_of_sharing;

/// The document.
pub fn markdown(plan: &Plan, encoder: &Encoder, results: &Results) -> String {
    let parts = [
        head(plan, encoder),
        format!(
            "## Frame error rate against Eb/N0\n\nCosts per nat {COSTS_PER_NAT}, each rule at its best g of the \
             sweep below.\n\n![Frame error rate](frame-error-rate.svg)\n\n"
        ),
        table(&results.curve),
        distances(&results.curve),
        format!(
            "## Sweep over g\n\nWhat a check sends is scaled by g/16. Costs per nat {COSTS_PER_NAT}. Fewest \
             frame errors at all Eb/N0 together: {}.\n\n",
            best(&results.scaling)
        ),
        table(&results.scaling),
        "## Sweep over the cost scale\n\nThe costs per nat of the quantiser; costs above 255 are cut \
         to it. g as in the curve.\n\n"
            .to_string(),
        table(&results.costs),
        weights::section(&results.weights),
        long_checks::section(&results.long_checks),
        margins::section(&results.margins),
        sharing::section(&results.sharing),
        blows::section(&results.blows),
        early::section(&results.early),
    ];
    parts.concat().trim_end().to_string() + "\n"
}

/// What was simulated and how.
fn head(plan: &Plan, encoder: &Encoder) -> String {
    format!(
        "# Simulation\n\nWritten by `make simulate`; every run rewrites it. The same seed ({}) and size \
         give the same counts.\n\n\
         Code, where no other is named: over GF(32), 248 symbols, {} of them free, 124 checks of degree 8, \
         column weight 4. \
         Random words, never the all-zero word, over BPSK and white noise. Iteration limit {LIMIT}. \
         The proved decoder is called through the static library. Its choices cost the sum of their columns' \
         costs, or in the Min-Max edition the greatest of them. The baseline is the Trellis Min-Max rule of \
         source document 003, which approximates that edition, in Rust, in the same layered schedule, with the \
         same quantiser, on the same frames.\n\n\
         A frame error is a frame not found, or found wrong: found means that the decisions satisfy \
         every check. Symbol errors count all symbols of a frame. The interval holds the frame \
         error rate with a confidence of 95 percent.\n\n",
        plan.seed,
        encoder.message_length()
    )
}

/// A table of counts.
fn table(counts: &[Count]) -> String {
    let mut table = String::from(
        "| Eb/N0, dB | rule | g | costs per nat | frames | frame errors | frame error rate | interval | \
         not found | found wrong | symbol errors | symbol error rate | mean iterations |\n\
         |---:|---|---:|---:|---:|---:|---:|---|---:|---:|---:|---:|---:|\n",
    );
    for Count {
        decibels,
        setup,
        tally,
    } in counts
    {
        let (low, high) = tally.interval();
        table += &format!(
            "| {decibels:.2} | {} | {} | {} | {} | {} | {} | {} to {} | {} | {} | {} | {} | {:.2} |\n",
            name(setup.rule),
            setup.g,
            setup.costs_per_nat,
            tally.frames,
            tally.frame_errors(),
            rate(tally.frame_error_rate()),
            rate(low),
            rate(high),
            tally.not_found,
            tally.wrong,
            tally.symbol_errors,
            rate(tally.symbol_error_rate()),
            tally.mean_iterations(),
        );
    }
    table + "\n"
}

/// The best g of each rule.
fn best(scaling: &[Count]) -> String {
    let of_rule = |rule| format!("g = {} for {}", best_g(scaling, rule), short_name(rule));
    RULES.map(of_rule).join(", ")
}

/// The curve as a chart.
pub fn chart(curve: &[Count]) -> Chart {
    let strokes = [Stroke::Solid, Stroke::Solid, Stroke::Dashed];
    let styles = COLOURS.into_iter().zip(strokes);
    let line = |(rule, (colour, stroke))| {
        let counts = of_rule(curve, rule);
        let g = counts[0].setup.g;
        Line {
            name: format!("{}, g = {g}", name(rule)),
            colour,
            stroke,
            counts,
        }
    };
    let lines: Vec<Line> = RULES.into_iter().zip(styles).map(line).collect();
    let title = "(248,137) code over GF(32), BPSK, white noise";
    curves::chart(title, &lines)
}

/// How far apart the rules of the curve are.
fn distances(curve: &[Count]) -> String {
    let lines = RULES.map(|rule| (short_name(rule), of_rule(curve, rule)));
    let lines = lines.each_ref();
    curves::distances(&lines.map(|(name, counts)| (*name, counts.as_slice())))
}

/// The counts with one rule.
fn of_rule(counts: &[Count], rule: Rule) -> Vec<Count> {
    let counts = counts.iter().copied();
    counts.filter(|count| count.setup.rule == rule).collect()
}

/// The rule in a table or a legend.
fn name(rule: Rule) -> String {
    match rule {
        Rule::Proved(k, _) => format!("{}, k = {k}", short_name(rule)),
        Rule::TrellisMinMax => short_name(rule).to_string(),
    }
}

/// The rule where k does not matter.
fn short_name(rule: Rule) -> &'static str {
    match rule {
        Rule::Proved(_, Edition::Sum) => "proved",
        Rule::Proved(_, Edition::Greatest) => "proved Min-Max",
        Rule::TrellisMinMax => "Trellis Min-Max",
    }
}

/// A rate with two digits after the point.
fn rate(rate: f64) -> String {
    if rate == 0.0 {
        "0".to_string()
    } else {
        format!("{rate:.2e}")
    }
}
