//! The times of one expansion.

use std::fmt::Debug;

use reference_decoder::sample::CheckSample;

use crate::engines::Engine;
use crate::timing::{race, Contender, Rules, Times};
use crate::{foreign, same};

/// Who expands records.
const EXPANDING: [Engine; 3] = [Engine::Proved, Engine::Rust, Engine::Old];

/// The results are bytes: the buffers are filled with A5 beforehand, and every byte is compared.
const BYTES: Rules<Vec<u8>> = Rules {
    spoil: |buffer| buffer.fill(0xA5),
    agree: |one, other| one == other,
    units: |_| 1,
};

/// A check with its record, k = 2.
pub struct Packed {
    pub check: CheckSample,
    pub record: Vec<u8>,
}

/// One round of expansions.
pub fn race_of(p: u8, packed: &[Packed], round: usize) -> (Vec<Engine>, Vec<Times>) {
    let engines = Engine::present(EXPANDING);
    let contender = |&engine| expanding(engine, p, packed);
    let mut contenders: Vec<_> = engines.iter().map(contender).collect();
    let times = race(&mut contenders, round, &BYTES);
    (engines, times)
}

/// An engine on some records, which are all of one degree.
fn expanding(engine: Engine, p: u8, packed: &[Packed]) -> Contender<'_, Packed, Vec<u8>> {
    let lent = vec![0; packed[0].check.degree() << p];
    match engine {
        Engine::Proved => Contender::new(packed, lent, expand_by(p, petsivola::expand)),
        Engine::Old => {
            let old = foreign::old_library().expect("the old library is present");
            Contender::new(packed, lent, expand_by(p, old.expand))
        }
        _ => Contender::new(packed, lent, expand_by(p, same::expand)),
    }
}

/// An expansion as a call on one input.
fn expand_by<E: Debug>(
    p: u8,
    expand: impl Fn(u8, &[u8], &[u8], &mut [u8]) -> Result<usize, E>,
) -> impl FnMut(&Packed, &mut Vec<u8>) {
    move |input, out| {
        expand(p, &input.check.weights, &input.record, out).expect("an accepted record");
    }
}
