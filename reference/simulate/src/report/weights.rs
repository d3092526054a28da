//! The section about the sweep over g by column weight.

use super::rate;
use crate::plan::COSTS_PER_NAT;
use crate::sweep::Sweep;
use crate::trial::Count;

/// The section.
pub fn section(sweeps: &[Sweep]) -> String {
    let parts = [
        format!(
            "## Sweep over g by column weight\n\nThe proved decoder alone with k = 2 and the sum, costs per nat \
             {COSTS_PER_NAT}. Every g decodes the same frames of a code. The codes of column weight 2 and \
             3 are quasi-cyclic with random weights; the one of weight 4 is the code of the other \
             sections. They differ in field, length and degree too.\n\n"
        ),
        best(sweeps),
        codes(sweeps),
        counts(sweeps),
    ];
    parts.concat()
}

/// Which g is best.
fn best(sweeps: &[Sweep]) -> String {
    let parts = sweeps.iter().map(|sweep| {
        let weight = sweep.shape.weight;
        format!(
            "g = {} for column weight {weight}",
            gs(&sweep.best(), " or ")
        )
    });
    let parts: Vec<String> = parts.collect();
    format!("Fewest frame errors: {}.\n\n", parts.join(", "))
}

/// The codes, each with the g that cannot be told from its best.
fn codes(sweeps: &[Sweep]) -> String {
    let mut table = String::from(
        "| column weight | field | symbols | free | checks | degree | Eb/N0, dB | best g | intervals \
         overlap with the best |\n|---:|---|---:|---:|---:|---:|---:|---:|---|\n",
    );
    for sweep in sweeps {
        let shape = &sweep.shape;
        table += &format!(
            "| {} | GF({}) | {} | {} | {} | {} | {:.2} | {} | g = {} |\n",
            shape.weight,
            shape.field,
            shape.columns,
            shape.free,
            shape.checks,
            shape.degree,
            sweep.counts[0].decibels,
            gs(&sweep.best(), " or "),
            gs(&sweep.near(), ", "),
        );
    }
    table + "\n"
}

/// The frame errors, a row for each g.
fn counts(sweeps: &[Sweep]) -> String {
    let mut table = String::from("| g |");
    for sweep in sweeps {
        let weight = sweep.shape.weight;
        table += &format!(" weight {weight}: frame errors | frame error rate | interval |");
    }
    table += &format!("\n|---:|{}\n", "---:|---:|---|".repeat(sweeps.len()));
    for place in 0..sweeps[0].counts.len() {
        table += &format!("| {} |", sweeps[0].counts[place].setup.g);
        for Count { tally, .. } in sweeps.iter().map(|sweep| &sweep.counts[place]) {
            let (low, high) = tally.interval();
            table += &format!(
                " {} of {} | {} | {} to {} |",
                tally.frame_errors(),
                tally.frames,
                rate(tally.frame_error_rate()),
                rate(low),
                rate(high),
            );
        }
        table += "\n";
    }
    table + "\n"
}

/// The g of some counts.
fn gs(counts: &[&Count], separator: &str) -> String {
    let gs: Vec<String> = counts
        .iter()
        .map(|count| count.setup.g.to_string())
        .collect();
    gs.join(separator)
}
