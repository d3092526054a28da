//! Document 02, §13: "Battery receivers should stop as soon as the decisions satisfy all checks, tested at the start and
//! after each check update."

mod moments;

use moments::*;
use reference_decoder::sample::{self, bytes, Generator, Size, Style};
use reference_decoder::{code_line, Decision, Outcome, Stopped};

/// By hand, g = 8 and the scaled costs rounded down. Update 0: the columns 0 1 0 2 and 2 2 1 0 are sent each other's
/// costs, scaled 1 1 0 0 and 0 0 0 1. Update 1, where column 1 has weight 2: 0 0 0 0 and 0 0 1 1. Update 2 takes the
/// first two off again, brings 0 1 0 2 and 1 1 1 0, and sends 0 0 0 0 and 0 0 0 1.
#[test]
fn a_frame_that_only_the_early_call_finds() {
    let expected = [
        [0, 1, 0, 2, 2, 2, 1, 0],
        [1, 2, 0, 2, 1, 1, 0, 0],
        [1, 2, 0, 2, 0, 0, 0, 0],
        [0, 1, 0, 2, 0, 0, 0, 0],
    ];
    for limit in [2, 3, 255] {
        let mut reception = Reception::of(TWO_CHECKS, FOUND_EARLY_ALONE).with_limit(limit);
        for (updates, costs) in expected.iter().enumerate() {
            let moment = reception.moment(updates);
            assert_eq!(moment.costs.concat(), costs);
            assert_eq!(reception.holds(&moment), updates == 3);
        }
        assert_eq!(reception.ordinary().0, Outcome::NotFound(limit));
        assert_eq!(reception.stop(), Stopped::Found(3));
        let filled = reception.buffers;
        assert_eq!(
            (&filled.symbols[..2], &filled.margins[..2]),
            (&[0; 2][..], &[0; 2][..])
        );
        assert_eq!(filled.costs[..8], [0, 1, 0, 2, 0, 0, 0, 0]);
        let records = "0300 01FF00FF00 000001FF00 010102FF00 0302 010102FF00 000101FF00 010102FF00";
        assert_eq!(filled.store[..34], bytes(records));
    }
    // With one iteration it is not found: two updates are all there are.
    let mut reception = Reception::of(TWO_CHECKS, FOUND_EARLY_ALONE).with_limit(1);
    assert_eq!(reception.stop(), Stopped::NotFound(2));
}

/// The word that satisfies every check after three updates is not the one that does after four.
#[test]
fn a_frame_that_the_two_calls_find_as_different_words() {
    let mut reception = Reception::of(MORE_WORDS, FOUND_AS_ANOTHER);
    let (outcome, decoded) = reception.ordinary();
    assert_eq!(outcome, Outcome::Found(2));
    assert_eq!(decoded.symbols[..3], [0, 3, 2]);
    assert_eq!(reception.stop(), Stopped::Found(3));
    assert_eq!(reception.buffers.symbols[..3], [0, 0, 0]);
}

/// One of six symbols arrives wrong: the first update corrects it, and three places of the store are not touched.
#[test]
fn inside_the_first_iteration() {
    let before = Reception::of(FOUR_CHECKS, ONE_WRONG);
    let mut after = before.clone();
    assert_eq!(after.stop(), Stopped::Found(1));
    assert_eq!(before.ordinary().0, Outcome::Found(1));
    assert_eq!(after.buffers.symbols[..6], [2, 2, 0, 1, 2, 3]);
    assert_eq!(after.buffers.margins[..6], [5, 9, 9, 9, 8, 7]);
    let record = bytes("020103 070208FF00 02000AFF00 09000D020A");
    assert_eq!(after.buffers.store[..18], record);
    assert_eq!(after.buffers.store[18..], before.buffers.store[18..]);
}

/// Three arrive wrong: nine updates, where the ordinary call makes twelve.
#[test]
fn inside_a_later_iteration() {
    let mut reception = Reception::of(FOUR_CHECKS, THREE_WRONG);
    assert_eq!(reception.ordinary().0, Outcome::Found(3));
    assert_eq!(reception.stop(), Stopped::Found(9));
    assert_eq!(reception.buffers.symbols[..6], [2, 2, 0, 1, 2, 3]);
    assert_eq!(reception.buffers.margins[..6], [7, 4, 5, 11, 10, 9]);
    // The first record is of the third iteration, the second of the second one.
    let records = "000303 050008FF00 020108FF00 07000A010E 020103 000102FF00 06010CFF00 060109FF00";
    assert_eq!(reception.buffers.store[..36], bytes(records));
}

#[test]
fn status_and_updates() {
    assert_eq!(
        (Stopped::Found(7).status(), Stopped::Found(7).updates()),
        (0, 7)
    );
    let not_found = Stopped::NotFound(32_640);
    assert_eq!((not_found.status(), not_found.updates()), (1, 32_640));
}

/// "or M times I when there is none", at most 128 times 255.
#[test]
fn not_found_makes_every_update() {
    for (m, limit, updates) in [(2, 1, 2), (2, 3, 6), (3, 255, 765), (128, 255, 32_640)] {
        let mut reception = Reception::never_found(m, limit);
        assert_eq!(reception.ordinary().0, Outcome::NotFound(limit));
        assert_eq!(reception.stop(), Stopped::NotFound(updates));
    }
}

/// A frame that is a word: found with no update, in a store that is untouched.
#[test]
fn a_word_is_found_at_the_start() {
    let mut generator = Generator::new(122);
    for round in 0..400 {
        let size = [Size::SMALL, Size::MEDIUM][usize::from(round % 8 == 0)].clone();
        let sample = sample::code(&mut generator, &size);
        let code = code_line(&sample.line).expect("an accepted code line");
        let frame = sample::certain_frame(&mut generator, &code, &sample.word);
        let before = Reception::new(&mut generator, code, frame);
        let mut after = before.clone();
        assert_eq!(after.stop(), Stopped::Found(0));
        assert_eq!(after.buffers.store, before.buffers.store);
        assert_eq!(after.buffers.symbols[..sample.word.len()], sample.word);
        let costs: Vec<u16> = before.frame.iter().map(|&cost| u16::from(cost)).collect();
        assert_eq!(after.buffers.costs[..costs.len()], costs);
    }
}

/// Where a reception stopped: found at the start, inside the first iteration, inside a later one, at the end of one; not
/// found.
fn kind(reception: &Reception, stopped: Stopped) -> usize {
    let updates = usize::from(stopped.updates());
    match stopped {
        Stopped::NotFound(_) => 4,
        Stopped::Found(0) => 0,
        Stopped::Found(_) if updates.is_multiple_of(reception.code.m) => 3,
        Stopped::Found(_) if updates < reception.code.m => 1,
        Stopped::Found(_) => 2,
    }
}

/// "the first moment in the machine's sequence of updates when the test holds, or M times I when there is none. The
/// status is found if the test holds at that moment, else not found."
#[test]
fn it_stops_at_the_first_moment_when_the_test_holds() {
    let mut kinds = [0; 5];
    receptions(123, 3_000, |before, _, stopped| {
        let moments = before.moments();
        let holds: Vec<bool> = moments.iter().map(|moment| before.holds(moment)).collect();
        let first = holds.iter().position(|&holds| holds);
        let updates = usize::from(stopped.updates());
        assert_eq!(updates, first.unwrap_or(before.most_updates()));
        assert_eq!(stopped.status(), u8::from(!holds[updates]));
        kinds[kind(before, stopped)] += 1;
    });
    assert!(kinds.iter().all(|&count| count > 50), "{kinds:?}");
}

/// "Symbols, margins, costs and updated records are those of that moment. Checks not yet updated keep the old bytes of
/// their place in the store": all else keeps its content.
fn is_of_its_moment(before: &Reception, after: &Reception, stopped: Stopped) {
    let updates = usize::from(stopped.updates());
    let moment = before.moment(updates);
    let mut expected = before.buffers.clone();
    let costs = moment.costs.concat();
    for (place, &cost) in costs.iter().enumerate() {
        expected.costs[place] = u16::try_from(cost).expect("P is 0 to 510");
    }
    for (n, costs) in moment.costs.iter().enumerate() {
        let decision = Decision::of(costs);
        (expected.symbols[n], expected.margins[n]) = (decision.symbol, decision.margin);
    }
    for (m, place) in before.code.places().into_iter().enumerate() {
        assert_eq!(moment.records[m].is_some(), m < updates);
        if let Some(record) = &moment.records[m] {
            expected.store[place].copy_from_slice(record);
        }
    }
    assert_eq!(
        after,
        &Reception {
            buffers: expected,
            ..before.clone()
        }
    );
}

#[test]
fn the_buffers_are_those_of_that_moment() {
    receptions(124, 3_000, is_of_its_moment);
}

#[test]
fn codes_at_the_limits() {
    let mut generator = Generator::new(125);
    for size in [Size::MOST_CHECKS, Size::MOST_DEGREE] {
        let size = Size { k: 2..=2, ..size };
        let sample = sample::code(&mut generator, &size);
        let code = code_line(&sample.line).expect("an accepted code line");
        let frame = sample::noisy_frame(&mut generator, &code, &sample.word, 4, Style::Uniform);
        let before = Reception::new(&mut generator, code, frame);
        let mut after = before.clone();
        let stopped = after.stop();
        assert!((1..=before.most_updates()).contains(&usize::from(stopped.updates())));
        is_of_its_moment(&before, &after, stopped);
    }
}

/// "It never makes more updates than M times the t of the ordinary call on the same input." Where no test inside an
/// iteration holds before, both calls end at one moment, with one status and the same buffers.
#[test]
fn never_more_updates_than_the_ordinary_call() {
    let [mut same, mut fewer, mut alone] = [0; 3];
    receptions(126, 3_000, |before, after, stopped| {
        let (outcome, decoded) = before.ordinary();
        let updates = usize::from(stopped.updates());
        let most = before.code.m * usize::from(outcome.iterations());
        assert!(updates <= most && most <= before.most_updates());
        let moments = before.moments();
        let held = moments[..most].iter().any(|moment| before.holds(moment));
        assert_eq!(updates < most, held);
        if held {
            assert_eq!(stopped.status(), 0);
            fewer += 1;
            alone += usize::from(outcome.status() == 1);
        } else {
            assert_eq!(stopped.status(), outcome.status());
            assert_eq!(after.buffers, decoded);
            same += 1;
        }
    });
    assert!(
        same > 1_000 && fewer > 300 && alone > 0,
        "{same} {fewer} {alone}"
    );
}
