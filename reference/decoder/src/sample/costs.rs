//! Columns of costs.

use super::Generator;

/// How the costs of a column are spread.
#[derive(Clone, Copy, Debug, PartialEq, Eq)]
pub enum Style {
    /// Any cost from 0 to 255.
    Uniform,
    /// Costs from 0 to 3, so that columns have several zeros and sums are often equal.
    NearZero,
    /// Costs from 252 to 255, so that every sum of two passes a byte.
    NearLimit,
    /// Multiples of 5 up to 15, so that a single cost often equals the sum of two.
    Tied,
    /// Each cost in a style of its own.
    Mixed,
}

impl Style {
    /// Every style.
    pub const ALL: [Style; 5] = [
        Style::Uniform,
        Style::NearZero,
        Style::NearLimit,
        Style::Tied,
        Style::Mixed,
    ];

    /// A cost in this style.
    fn cost(self, generator: &mut Generator) -> u8 {
        match self {
            Style::Uniform => generator.byte(0..=255),
            Style::NearZero => generator.byte(0..=3),
            Style::NearLimit => generator.byte(252..=255),
            Style::Tied => 5 * generator.byte(0..=3),
            Style::Mixed => {
                let style = generator.one_of(&Style::ALL[..4]);
                style.cost(generator)
            }
        }
    }
}

/// The `q` costs of one column, at least one of them 0.
pub fn column(generator: &mut Generator, q: usize, style: Style) -> Vec<u8> {
    let mut costs: Vec<u8> = (0..q).map(|_| style.cost(generator)).collect();
    costs[generator.below(q)] = 0;
    costs
}

/// The `q` costs of one column whose hard decision is `symbol`.
pub fn column_deciding(generator: &mut Generator, q: usize, style: Style, symbol: u8) -> Vec<u8> {
    let symbol = usize::from(symbol);
    let mut costs: Vec<u8> = (0..q).map(|_| style.cost(generator)).collect();
    for cost in &mut costs[..symbol] {
        *cost = (*cost).max(1);
    }
    costs[symbol] = 0;
    costs
}

/// The costs of `count` columns, column by column, each with at least one 0.
pub fn columns(generator: &mut Generator, q: usize, count: usize, style: Style) -> Vec<u8> {
    (0..count)
        .flat_map(|_| column(generator, q, style))
        .collect()
}
