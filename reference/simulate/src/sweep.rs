//! One code with several g on the same frames.

use crate::trial::{Count, Scene};

/// What the document says about a code.
#[derive(Clone, Copy, Debug, PartialEq, Eq)]
pub struct Shape {
    /// In how many checks each column is.
    pub weight: usize,
    /// q.
    pub field: usize,
    /// N.
    pub columns: usize,
    /// The symbols of a message.
    pub free: usize,
    /// M.
    pub checks: usize,
    /// The columns of each check.
    pub degree: usize,
}

/// The counts of one code with every g.
#[derive(Clone, Debug, PartialEq)]
pub struct Sweep {
    /// The code.
    pub shape: Shape,
    /// One count for each g, rising.
    pub counts: Vec<Count>,
}

impl Shape {
    /// The shape of a code whose checks are all of one degree and whose columns are all of one weight.
    pub fn of(scene: &Scene) -> Shape {
        let code = &scene.code;
        Shape {
            weight: code.edges() / code.columns,
            field: code.field.size(),
            columns: code.columns,
            free: scene.encoder.message_length(),
            checks: code.checks.len(),
            degree: code.edges() / code.checks.len(),
        }
    }
}

impl Sweep {
    /// The counts with the fewest frame errors: more than one where they are equal.
    pub fn best(&self) -> Vec<&Count> {
        let errors = |count: &Count| count.tally.frame_errors();
        let fewest = self.counts.iter().map(errors).min();
        let best = |count: &&Count| Some(errors(count)) == fewest;
        self.counts.iter().filter(best).collect()
    }

    /// The counts whose interval overlaps with that of the best ones, these among them.
    pub fn near(&self) -> Vec<&Count> {
        let highest = |count: &&Count| count.tally.interval().1;
        let reach = self.best().iter().map(highest).fold(0.0, f64::max);
        let near = |count: &&Count| count.tally.interval().0 <= reach;
        self.counts.iter().filter(near).collect()
    }
}
