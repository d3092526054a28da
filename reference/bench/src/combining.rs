//! The times of combining two frames.

use petsivola::Edition;

use crate::decoding::{LIMIT, SCALE};
use crate::engines::{Engine, Results};
use crate::inputs::Job;
use crate::timing::{race, Contender, Rules};

/// The frames of a code that are taken, each with each of the others.
const FRAMES: usize = 8;

/// Two frames.
type Pair<'a> = [&'a [u8]; 2];

/// The combined frame is filled with A5 beforehand. A unit is a call.
const RULES: Rules<Vec<u8>> = Rules {
    spoil: |combined| combined.fill(0xA5),
    agree: |one, other| one == other,
    units: |_| 1,
};

/// The times for one code, each the seconds of a call, with the reading of the code line and all tests.
pub struct Row<'a> {
    /// The code and its frames.
    pub job: &'a Job,
    /// The calls.
    pub combine: Results,
}

impl Row<'_> {
    /// The seconds of a call.
    pub fn of_call(&self) -> f64 {
        self.combine.median(Engine::Proved)
    }
}

/// Measures one code, with all pairs of its frames in each round.
///
/// # Panics
///
/// When a combined frame is not the reference decoder's.
pub fn measure(job: &Job, rounds: usize) -> Row<'_> {
    let line = job.code.line(2, Edition::Sum, SCALE, LIMIT);
    let pairs = pairs(job);
    let call = |&[first, second]: &Pair, out: &mut Vec<u8>| {
        petsivola::combine(&line, first, second, out).expect("two accepted frames");
    };
    let lent = vec![0; job.code.frame_length()];
    let mut contenders = [Contender::new(&pairs, lent.clone(), call)];
    let mut combine = Results::default();
    for round in 0..rounds {
        let times = race(&mut contenders, round, &RULES);
        combine.append(&[Engine::Proved], times);
    }
    for (&[first, second], combined) in pairs.iter().zip(contenders[0].outputs()) {
        let mut expected = lent.clone();
        let answer = reference_decoder::combine(&line, first, second, &mut expected);
        assert_eq!(answer, Ok(lent.len()), "two accepted frames");
        assert_eq!(combined, &expected, "the reference decoder's frame");
    }
    Row { job, combine }
}

/// Each of some frames with each of the others. They are of different words, which the time does not depend on.
fn pairs(job: &Job) -> Vec<Pair<'_>> {
    let frames: Vec<&[u8]> = job.frames.iter().take(FRAMES).map(Vec::as_slice).collect();
    let places = 0..frames.len();
    let pairs = places
        .clone()
        .flat_map(|one| places.clone().map(move |other| (one, other)));
    pairs
        .filter(|(one, other)| one != other)
        .map(|(one, other)| [frames[one], frames[other]])
        .collect()
}
