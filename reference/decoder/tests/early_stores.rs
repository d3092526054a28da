//! Demand 3 where a decoding stops inside an iteration. Document 02, §13: "Checks not yet updated keep the old bytes of
//! their place in the store, so equal stores are claimed only over checks updated in both decodings."

mod moments;

use std::collections::HashMap;

use moments::{Reception, ONE_WRONG};
use reference_decoder::sample::{self, Generator, Size, Style};
use reference_decoder::{code_line, Code, Join};

/// What a check sent at its last update: the shifts, and the costs at each symbol.
type Sent = (Vec<u8>, Vec<Vec<u8>>);

/// What earlier decodings left in the place of one check.
#[derive(Default)]
struct Place {
    /// The sent costs of a record, and the updates of the decoding that left it.
    by_record: HashMap<Vec<u8>, (Sent, u16)>,
    by_sent: HashMap<Sent, Vec<u8>>,
}

/// What [`compare_places`] met.
#[derive(Debug, Default)]
struct Met {
    /// Records that an earlier decoding left in this place too.
    equal: usize,
    /// Those of them where the other decoding made another number of updates.
    after_other_updates: usize,
    /// Those of them where one of the two left other checks without an update.
    beside_old_bytes: usize,
    /// Records that no earlier decoding left in this place.
    different: usize,
}

/// A frame of costs 0 and 16.
fn two_costs(generator: &mut Generator, code: &Code) -> Vec<u8> {
    let frame = sample::frame(generator, code, Style::NearZero);
    frame.into_iter().map(|cost| cost % 2 * 16).collect()
}

/// Tries pairs of frames under one code: in the place of a check that both decodings updated, the bytes are equal
/// exactly when, at its last update, "each column was sent the same sum of the other columns' weighted hard decisions
/// and, at each symbol, the same least cost before scaling".
fn compare_places(generator: &mut Generator, size: &Size, met: &mut Met) {
    let line = sample::code(generator, size).line;
    let code = code_line(&line).expect("an accepted code line");
    let mut places: Vec<Place> = code.checks.iter().map(|_| Place::default()).collect();
    for _ in 0..150 {
        let frame = two_costs(generator, &code);
        let mut reception = Reception::new(generator, code.clone(), frame);
        let updates = reception.stop().updates();
        let machine = reception.moment(usize::from(updates));
        let records = code.records(&reception.buffers.store).into_iter();
        for ((place, record), messages) in places.iter_mut().zip(records).zip(machine.last_messages)
        {
            let Some(messages) = messages else { continue };
            let sent = (messages.shifts, messages.sent);
            place.take(record, sent, updates, (code.m, met));
        }
    }
}

impl Place {
    /// Compares a record that a decoding of so many updates, under a code of M checks, left here with earlier ones.
    fn take(&mut self, record: &[u8], sent: Sent, updates: u16, (m, met): (usize, &mut Met)) {
        let known = self.by_sent.entry(sent.clone());
        assert_eq!(known.or_insert_with(|| record.to_vec()), record);
        match self.by_record.get(record) {
            Some((known, others)) => {
                assert_eq!(known, &sent);
                met.equal += 1;
                met.after_other_updates += usize::from(updates != *others);
                let least = usize::from(updates.min(*others));
                met.beside_old_bytes += usize::from(least < m);
            }
            None => met.different += 1,
        }
        self.by_record.insert(record.to_vec(), (sent, updates));
    }
}

#[test]
fn places_are_equal_exactly_when_the_last_updates_agree() {
    let mut generator = Generator::new(140);
    for (k, join) in [
        (2, Join::Sum),
        (2, Join::Greatest),
        (3, Join::Sum),
        (3, Join::Greatest),
    ] {
        let mut met = Met::default();
        for degree in [2..=2, 2..=3, 3..=3] {
            let size = Size {
                p: 2..=2,
                k: k..=k,
                join: join..=join,
                columns: 3..=4,
                checks: 1..=3,
                degree,
                limit: 1..=3,
            };
            for _ in 0..40 {
                compare_places(&mut generator, &size, &mut met);
            }
        }
        assert!(met.equal > 1_000 && met.different > 1_000, "{met:?}");
        assert!(met.after_other_updates > 100, "{met:?}");
        assert!(met.beside_old_bytes > 100, "{met:?}");
    }
}

/// One frame twice, stopped inside the first iteration, in stores with other bytes: they are equal in the place that was
/// updated, and nothing is claimed of the others.
#[test]
fn one_frame_in_stores_of_other_content() {
    let receptions = [0x00, 0xFF].map(|byte| {
        let mut reception = Reception::of(moments::FOUR_CHECKS, ONE_WRONG);
        reception.buffers.store.fill(byte);
        assert_eq!(reception.stop().updates(), 1);
        reception
    });
    let [one, other] = receptions
        .each_ref()
        .map(|one| one.code.records(&one.buffers.store));
    assert_eq!(one[0], other[0]);
    for place in 1..4 {
        assert_eq!(
            (one[place], other[place]),
            (&[0x00; 18][..], &[0xFF; 18][..])
        );
    }
}
