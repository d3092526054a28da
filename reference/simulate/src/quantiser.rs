//! The quantiser: from the channel's logarithms to the costs of a frame. Document 01, "One check":
//! "Column n brings q costs Q_n(x), each 0 to 255, at least one of them 0."

/// Costs per nat.
#[derive(Clone, Copy, Debug, PartialEq)]
pub struct Quantiser {
    /// The cost of a symbol that is e times less likely than the likeliest.
    pub costs_per_nat: f64,
}

impl Quantiser {
    /// "A frame is N times q costs, column by column." The logarithms stand p a symbol, lowest bit
    /// first.
    pub fn frame(&self, p: u8, ratios: &[f64]) -> Vec<u8> {
        ratios
            .chunks_exact(usize::from(p))
            .flat_map(|bits| self.column(bits))
            .collect()
    }

    /// The costs of one column. A symbol's distance is L_n(a) of document 003, "the log-likelihood
    /// ratio (LLR) for each received symbol": the sum over its bits that are not the likelier ones.
    /// The least distance is subtracted before rounding, so that a column has a 0; costs above 255
    /// are cut to it.
    fn column(&self, bits: &[f64]) -> Vec<u8> {
        let distance = |symbol: usize| -> f64 {
            let parts = bits.iter().enumerate();
            parts
                .filter(|&(bit, &ratio)| ((symbol >> bit) & 1 == 1) != (ratio < 0.0))
                .map(|(_, ratio)| ratio.abs())
                .sum()
        };
        let distances: Vec<f64> = (0..1 << bits.len()).map(distance).collect();
        let least = distances.iter().copied().fold(f64::INFINITY, f64::min);
        distances
            .iter()
            // The conversion cuts what is above 255.
            .map(|distance| ((distance - least) * self.costs_per_nat).round() as u8)
            .collect()
    }
}
