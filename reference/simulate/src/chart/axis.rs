//! The axes of a chart.

/// How numbers are spread along an axis.
#[derive(Clone, Copy, Debug, PartialEq, Eq)]
enum Scale {
    Linear,
    Logarithmic,
}

/// An axis with its ends and its marked numbers.
#[derive(Clone, Debug, PartialEq)]
pub struct Axis {
    /// What the numbers are, with their unit.
    pub label: String,
    scale: Scale,
    low: f64,
    high: f64,
    /// The marked numbers with their text; an empty text marks a finer step.
    pub ticks: Vec<(f64, String)>,
}

impl Axis {
    /// An axis with equal steps, marked from `low` to `high` every `step`.
    pub fn linear(label: &str, low: f64, high: f64, step: f64) -> Axis {
        let count = ((high - low) / step).round() as usize;
        let ticks = (0..=count).map(|tick| {
            let number = low + step * tick as f64;
            (number, short(number))
        });
        Axis {
            label: label.to_string(),
            scale: Scale::Linear,
            low,
            high,
            ticks: ticks.collect(),
        }
    }

    /// A logarithmic axis over whole decades that hold all the numbers, marked at each power of ten
    /// and, more finely, at its multiples.
    pub fn decades(label: &str, numbers: impl IntoIterator<Item = f64>) -> Axis {
        let (least, greatest) = ends(numbers);
        let first = least.log10().floor() as i32;
        let last = (greatest.log10().ceil() as i32).max(first + 1);
        let mut ticks = Vec::new();
        for decade in first..=last {
            let power = 10f64.powi(decade);
            ticks.push((power, short(power)));
            if decade < last {
                ticks.extend((2..10).map(|factor| (power * f64::from(factor), String::new())));
            }
        }
        Axis {
            label: label.to_string(),
            scale: Scale::Logarithmic,
            low: 10f64.powi(first),
            high: 10f64.powi(last),
            ticks,
        }
    }

    /// A logarithmic axis marked at these rising numbers.
    pub fn marked(label: &str, numbers: &[f64]) -> Axis {
        let (low, high) = ends(numbers.iter().copied());
        Axis {
            label: label.to_string(),
            scale: Scale::Logarithmic,
            low: low / 1.15,
            high: high * 1.15,
            ticks: numbers
                .iter()
                .map(|&number| (number, short(number)))
                .collect(),
        }
    }

    /// An axis with equal steps whose whole numbers from 0 on have these names.
    pub fn named(label: &str, names: &[String]) -> Axis {
        Axis {
            label: label.to_string(),
            scale: Scale::Linear,
            low: -0.5,
            high: names.len() as f64 - 0.5,
            ticks: (0..names.len())
                .map(|number| number as f64)
                .zip(names.iter().cloned())
                .collect(),
        }
    }

    /// Where a number stands: 0 at the low end, 1 at the high end. Numbers past an end stand there.
    pub fn place(&self, number: f64) -> f64 {
        let part = match self.scale {
            Scale::Linear => (number - self.low) / (self.high - self.low),
            Scale::Logarithmic => (number / self.low).ln() / (self.high / self.low).ln(),
        };
        part.clamp(0.0, 1.0)
    }
}

/// The least and the greatest number.
fn ends(numbers: impl IntoIterator<Item = f64>) -> (f64, f64) {
    let start = (f64::INFINITY, f64::NEG_INFINITY);
    numbers.into_iter().fold(start, |(low, high), number| {
        (low.min(number), high.max(number))
    })
}

/// A number without needless digits.
fn short(number: f64) -> String {
    let text = format!("{number:.6}");
    let text = text.trim_end_matches('0').trim_end_matches('.');
    text.to_string()
}
