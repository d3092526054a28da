//! Errors among symbols that come in frames.

/// The symbols of some frames, and those of them that are wrong. In one frame many are wrong or none, so the
/// spread between the frames is counted too.
#[derive(Clone, Copy, Debug, Default, PartialEq, Eq)]
pub struct Share {
    /// The symbols.
    pub symbols: usize,
    /// Those that are wrong.
    pub errors: usize,
    /// Over the frames: the squares of the symbols, of the errors, and the products of both.
    squares: [usize; 3],
}

impl Share {
    /// Counts one frame.
    pub fn count(&mut self, symbols: usize, errors: usize) {
        self.symbols += symbols;
        self.errors += errors;
        let squares = [symbols * symbols, errors * errors, symbols * errors];
        for (sum, square) in self.squares.iter_mut().zip(squares) {
            *sum += square;
        }
    }

    /// The part that is wrong; none without symbols.
    pub fn rate(&self) -> Option<f64> {
        (self.symbols > 0).then(|| self.errors as f64 / self.symbols as f64)
    }

    /// The interval in which this part lies with a confidence of 95 percent, by Wilson's formula for as many
    /// independent symbols as have the spread that was seen; none without symbols.
    pub fn interval(&self) -> Option<(f64, f64)> {
        let rate = self.rate()?;
        Some(wilson(rate, self.symbols as f64 / self.clustering(rate)))
    }

    /// How many times the variance of independent symbols the rate has, at least 1: the squares of what a
    /// frame's errors are off the rate, added up, beside that of its symbols one by one.
    fn clustering(&self, rate: f64) -> f64 {
        let [symbols, errors, products] = self.squares.map(|sum| sum as f64);
        let between = errors - 2.0 * rate * products + rate * rate * symbols;
        let independent = self.symbols as f64 * rate * (1.0 - rate);
        if independent > 0.0 {
            (between / independent).max(1.0)
        } else {
            1.0
        }
    }
}

/// The interval of a rate among so many, with a confidence of 95 percent, by Wilson's formula.
pub fn wilson(rate: f64, count: f64) -> (f64, f64) {
    const Z: f64 = 1.96;
    let spread = Z * (rate * (1.0 - rate) / count + Z * Z / (4.0 * count * count)).sqrt();
    let middle = rate + Z * Z / (2.0 * count);
    let whole = 1.0 + Z * Z / count;
    // Without an error the two terms are the same but for rounding.
    let low = if rate > 0.0 {
        ((middle - spread) / whole).max(0.0)
    } else {
        0.0
    };
    (low, (middle + spread) / whole)
}
