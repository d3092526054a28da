//! Interleaved timing. The inputs are taken in short stretches; in each of them all contenders run in
//! turn, so that whatever else the machine does meets all of them alike. A time is the median over all
//! stretches, and a ratio the median of the ratios within each stretch.
//!
//! No contender gets an input twice in a race, but for the first: a processor that has seen some inputs
//! often enough foretells every jump on them, and how well it does changes from run to run.

use std::hint::black_box;
use std::ops::Range;
use std::time::Instant;

use reference_decoder::sample::Generator;

/// A stretch lasts about this many seconds for the first contender.
const STRETCH: f64 = 0.000_1;

/// A call on one input, with the buffers lent to it.
type Call<'a, I, O> = Box<dyn FnMut(&I, &mut O) + 'a>;

/// One call over a list of inputs, each with lent buffers of its own.
pub struct Contender<'a, I, O> {
    inputs: &'a [I],
    outputs: Vec<O>,
    call: Call<'a, I, O>,
}

impl<'a, I, O: Clone> Contender<'a, I, O> {
    /// A contender; `output` is what each call is lent.
    pub fn new(
        inputs: &'a [I],
        output: O,
        call: impl FnMut(&I, &mut O) + 'a,
    ) -> Contender<'a, I, O> {
        Contender {
            inputs,
            outputs: vec![output; inputs.len()],
            call: Box::new(call),
        }
    }

    /// What the last calls left in the lent buffers, input by input.
    pub fn outputs(&self) -> &[O] {
        &self.outputs
    }

    /// The seconds that some of the inputs take.
    fn timed(&mut self, part: Range<usize>) -> f64 {
        let start = Instant::now();
        let inputs = self.inputs[part.clone()].iter();
        for (input, output) in inputs.zip(&mut self.outputs[part]) {
            (self.call)(black_box(input), black_box(output));
        }
        start.elapsed().as_secs_f64()
    }
}

/// How the results of a race are handled, outside the timed stretches.
pub struct Rules<O> {
    /// Fills the lent buffers before each stretch, so that no earlier result can pass for a new one.
    pub spoil: fn(&mut O),
    /// Whether two contenders left the same result.
    pub agree: fn(&O, &O) -> bool,
    /// What a call is counted as: 1, or the iterations or check updates that it made.
    pub units: fn(&O) -> usize,
}

/// The times of one contender.
#[derive(Clone, Debug, Default, PartialEq)]
pub struct Times {
    /// The seconds for each unit, in every stretch.
    each: Vec<f64>,
    /// The seconds of all stretches together.
    total: f64,
}

impl Times {
    /// The times of stretches, each with its seconds and its units.
    fn of(stretches: impl Iterator<Item = (f64, usize)>) -> Times {
        let mut times = Times::default();
        for (seconds, units) in stretches {
            times.each.push(seconds / units as f64);
            times.total += seconds;
        }
        times
    }

    /// Adds the times of a further race.
    pub fn append(&mut self, mut further: Times) {
        self.each.append(&mut further.each);
        self.total += further.total;
    }

    /// The median.
    pub fn median(&self) -> f64 {
        median(self.each.clone())
    }

    /// The median of this time divided by the other in the same stretch.
    pub fn ratio(&self, other: &Times) -> f64 {
        let pairs = self.each.iter().zip(&other.each);
        median(pairs.map(|(time, other)| time / other).collect())
    }

    /// All seconds, whatever the units, by all of the other's.
    pub fn whole_ratio(&self, other: &Times) -> f64 {
        self.total / other.total
    }
}

/// Runs the contenders in turn and compares their results. All have the same inputs. Their order is drawn
/// anew for each stretch: what one leaves in the caches meets all the others alike.
///
/// # Panics
///
/// When a contender's results differ from those of the first one: the times of a wrong program are
/// worth nothing.
pub fn race<I, O: Clone>(
    contenders: &mut [Contender<I, O>],
    round: usize,
    rules: &Rules<O>,
) -> Vec<Times> {
    let count = contenders[0].inputs.len();
    // The first input is taken beforehand: the caches then hold the code, and a call's time is known.
    for contender in contenders.iter_mut() {
        contender.timed(0..1);
    }
    let part = stretch(contenders[0].timed(0..1), count);
    let parts: Vec<Range<usize>> = (0..count)
        .step_by(part)
        .map(|start| start..(start + part).min(count))
        .collect();
    let mut generator = Generator::new(round as u64);
    let mut seconds = vec![vec![0.0; parts.len()]; contenders.len()];
    for (place, part) in parts.iter().enumerate() {
        for index in order(contenders.len(), &mut generator) {
            let contender = &mut contenders[index];
            let outputs = &mut contender.outputs[part.clone()];
            outputs.iter_mut().for_each(rules.spoil);
            seconds[index][place] = contender.timed(part.clone());
        }
    }
    compare(contenders, rules);
    let times = |(contender, seconds): (&Contender<I, O>, Vec<f64>)| {
        let outputs = parts.iter().map(|part| &contender.outputs[part.clone()]);
        let units = outputs.map(|outputs| outputs.iter().map(rules.units).sum());
        Times::of(seconds.into_iter().zip(units))
    };
    contenders.iter().zip(seconds).map(times).collect()
}

/// The numbers below `count` in a drawn order.
fn order(count: usize, generator: &mut Generator) -> Vec<usize> {
    let mut order: Vec<usize> = (0..count).collect();
    for place in (1..count).rev() {
        order.swap(place, generator.below(place + 1));
    }
    order
}

/// How many of `count` inputs a stretch takes, when a call lasts so many seconds.
fn stretch(seconds: f64, count: usize) -> usize {
    let part = (STRETCH / seconds).ceil() as usize;
    part.clamp(1, count)
}

/// Holds every contender's results against those of the first.
fn compare<I, O>(contenders: &[Contender<I, O>], rules: &Rules<O>) {
    let (first, others) = contenders.split_first().expect("a race has contenders");
    for (index, other) in others.iter().enumerate() {
        let pairs = first.outputs.iter().zip(&other.outputs);
        for (input, (expected, found)) in pairs.enumerate() {
            assert!(
                (rules.agree)(expected, found),
                "contender {} differs from the first on input {input}",
                index + 1
            );
        }
    }
}

/// The median of some numbers.
pub fn median(mut numbers: Vec<f64>) -> f64 {
    numbers.sort_by(f64::total_cmp);
    let (middle, odd) = (numbers.len() / 2, numbers.len() % 2 == 1);
    if odd {
        numbers[middle]
    } else {
        (numbers[middle - 1] + numbers[middle]) / 2.0
    }
}

#[cfg(test)]
mod tests {
    use super::*;

    #[test]
    fn medians_and_ratios() {
        let a = Times::of([(8.0, 2), (1.0, 1), (9.0, 1)].into_iter());
        let b = Times::of([(2.0, 1), (1.0, 1), (9.0, 3)].into_iter());
        assert_eq!(a.median(), 4.0);
        assert_eq!(a.ratio(&b), 2.0);
        assert_eq!(a.whole_ratio(&b), 1.5);
        assert_eq!(median(vec![1.0, 4.0, 2.0, 8.0]), 3.0);
    }

    #[test]
    fn every_order_is_drawn() {
        let mut generator = Generator::new(0);
        let mut orders: Vec<_> = (0..100).map(|_| order(3, &mut generator)).collect();
        orders.sort_unstable();
        orders.dedup();
        assert_eq!(orders.len(), 6);
        assert_eq!(orders[5], [2, 1, 0]);
    }

    #[test]
    fn stretches_last_long_enough() {
        assert_eq!(stretch(STRETCH / 64.0, 32), 32);
        assert_eq!(stretch(STRETCH / 8.0, 32), 8);
        assert_eq!(stretch(STRETCH * 8.0, 32), 1);
    }

    #[test]
    fn every_input_is_taken_once_after_the_first() {
        let inputs: Vec<usize> = (0..1_000).collect();
        let mut seen = vec![0; inputs.len()];
        let count = |&input: &usize, output: &mut usize| {
            seen[input] += 1;
            *output = input;
        };
        let rules = Rules {
            spoil: |output| *output = usize::MAX,
            agree: |a, b| a == b,
            units: |_| 1,
        };
        race(&mut [Contender::new(&inputs, 0, count)], 0, &rules);
        assert!(seen[1..].iter().all(|&times| times == 1));
    }

    #[test]
    #[should_panic(expected = "contender 1 differs from the first on input 2")]
    fn a_wrong_result_stops_the_race() {
        let inputs = [1, 2, 3];
        let right = Contender::new(&inputs, 0, |input, output| *output = 2 * input);
        let wrong = Contender::new(&inputs, 0, |input, output| *output = input + 2.min(*input));
        let rules = Rules {
            spoil: |output| *output = -1,
            agree: |a, b| a == b,
            units: |_| 1,
        };
        race(&mut [right, wrong], 0, &rules);
    }
}
