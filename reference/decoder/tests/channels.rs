//! Document 02, §9: up to eight channels under one allowance of iterations.

mod station;

use reference_decoder::channels::Ended;
use reference_decoder::sample::{Generator, Size};
use reference_decoder::{Decision, Outcome, Refusal, Served};
use station::{Station, FOUND_AT_ONCE, FOUND_LATER, REFUSED};

/// Random stations, each before and after its call.
fn served(seed: u64, rounds: usize, mut each: impl FnMut(&Station, &Station, &Served)) {
    let mut generator = Generator::new(seed);
    for _ in 0..rounds {
        let before = Station::random(&mut generator, &Size::SMALL);
        let mut after = before.clone();
        let served = after.serve().expect("an accepted call");
        each(&before, &after, &served);
    }
}

/// The iterations that each channel makes when it is decoded alone; a refused one makes none.
fn needed(station: &Station) -> Vec<usize> {
    let needed = |channel| {
        let (outcome, _) = station.alone(channel, station.code[5]);
        outcome.map_or(0, |outcome| usize::from(outcome.iterations()))
    };
    (0..usize::from(station.count)).map(needed).collect()
}

#[test]
fn an_example_with_every_status() {
    let frames = [FOUND_LATER, REFUSED, FOUND_AT_ONCE, FOUND_LATER];
    let mut station = Station::of(&frames, 1);
    let served = station.serve().unwrap();
    let [later, refused, at_once, spent] = served.channels[..] else {
        panic!("four channels");
    };
    assert_eq!(later, Ended::Found(1));
    assert_eq!((refused, at_once), (Ended::Refused, Ended::Found(0)));
    assert_eq!(spent, Ended::Spent(0));
    assert_eq!(
        served
            .channels
            .iter()
            .map(|ended| ended.status())
            .collect::<Vec<_>>(),
        [0, 13, 0, 20]
    );
    assert_eq!((served.spent(), served.order), (1, vec![0]));
}

/// "What a channel not refused receives after j iterations is, but for a spent one's status, what decoding it alone
/// with iteration limit j gives; for j = 0, the first decisions with their margins, the frame as costs and an
/// untouched store."
#[test]
fn a_channel_receives_what_decoding_it_alone_gives() {
    let mut kinds = [0; 6];
    served(91, 3_000, |before, after, served| {
        for (channel, &ended) in served.channels.iter().enumerate() {
            let kind = match ended {
                Ended::Refused => 0,
                Ended::Found(0) => 1,
                Ended::Spent(0) => 2,
                Ended::Found(_) => 3,
                Ended::NotFound(_) => 4,
                Ended::Spent(_) => 5,
            };
            kinds[kind] += 1;
            receives(before, after, channel, ended);
        }
        assert_eq!(after.rest(), before.rest());
        assert_eq!((&after.code, &after.frames), (&before.code, &before.frames));
    });
    assert!(kinds.iter().all(|&count| count > 300), "{kinds:?}");
}

/// Holds what one channel received against decoding it alone.
fn receives(before: &Station, after: &Station, channel: usize, ended: Ended) {
    let j = ended.iterations();
    let (alone, part) = before.alone(channel, j.max(1));
    match ended {
        Ended::Refused => {
            assert_eq!(alone, Err(Refusal::NoZeroCost));
            assert_eq!(after.part(channel), before.part(channel));
        }
        Ended::Found(0) | Ended::Spent(0) => {
            first_decisions(before, after, channel);
            assert_eq!(alone == Ok(Outcome::Found(0)), ended == Ended::Found(0));
        }
        Ended::Found(_) => assert_eq!((alone, part), (Ok(Outcome::Found(j)), after.part(channel))),
        Ended::NotFound(_) | Ended::Spent(_) => {
            assert_eq!(
                (alone, part),
                (Ok(Outcome::NotFound(j)), after.part(channel))
            );
            let at_limit = j == before.code[5];
            assert_eq!(at_limit, ended == Ended::NotFound(j));
        }
    }
}

/// The clause for j = 0.
fn first_decisions(before: &Station, after: &Station, channel: usize) {
    let q = before.read_code().field().size();
    let frame = before.frame(channel);
    let part = after.part(channel);
    let columns = frame.chunks(q).map(|column| {
        let costs: Vec<i32> = column.iter().map(|&cost| i32::from(cost)).collect();
        Decision::of(&costs)
    });
    let decisions: Vec<Decision> = columns.collect();
    assert!(part
        .symbols
        .iter()
        .copied()
        .eq(decisions.iter().map(|decision| decision.symbol)));
    assert!(part
        .margins
        .iter()
        .copied()
        .eq(decisions.iter().map(|decision| decision.margin)));
    assert!(part
        .costs
        .iter()
        .copied()
        .eq(frame.iter().map(|&cost| u16::from(cost))));
    assert_eq!(part.store, before.part(channel).store);
}

/// "The iterations of all results add up to at most A, and to exactly A if any channel is spent."
#[test]
fn the_iterations_add_up() {
    let (mut short, mut enough) = (0, 0);
    served(92, 3_000, |before, _, served| {
        let spent = served.spent();
        assert_eq!(spent as usize, served.order.len());
        assert!(spent <= before.allowance);
        let any_spent = served
            .channels
            .iter()
            .any(|ended| matches!(ended, Ended::Spent(_)));
        if any_spent {
            assert_eq!(spent, before.allowance);
        }
        *(if any_spent { &mut short } else { &mut enough }) += 1;
    });
    assert!(short > 500 && enough > 500, "{short} {enough}");
}

/// "The channels are served by number in turn, one iteration each, and finished ones (found, refused or at I
/// iterations) are skipped": in round r those that need more than r iterations, by number, until A is spent.
#[test]
fn the_channels_are_served_in_turn() {
    served(93, 2_000, |before, _, served| {
        let needed = needed(before);
        let mut order = Vec::new();
        for round in 0..usize::from(before.code[5]) {
            order.extend((0..needed.len()).filter(|&channel| needed[channel] > round));
        }
        order.truncate(before.allowance as usize);
        assert_eq!(served.order, order);
    });
}

/// "With u channels unfinished and at least u iterations of A left, each unfinished one gets its next iteration within
/// u."
#[test]
fn each_unfinished_channel_gets_its_next_iteration_within_u() {
    let mut tested = 0;
    served(94, 2_000, |before, _, served| {
        let needed = needed(before);
        for moment in 0..served.order.len() {
            let (made, to_come) = served.order.split_at(moment);
            let j = |channel| made.iter().filter(|&&made| made == channel).count();
            let unfinished = |channel: &usize| j(*channel) < needed[*channel];
            let unfinished: Vec<usize> = (0..needed.len()).filter(unfinished).collect();
            let u = unfinished.len();
            if before.allowance as usize - moment >= u {
                let within = &to_come[..u];
                assert!(unfinished.iter().all(|channel| within.contains(channel)));
                tested += 1;
            }
        }
    });
    assert!(tested > 2_000, "{tested}");
}

/// "Only 13 is a channel's own: its parts of the buffers are unchanged and the others are served as before": as when
/// the channel is not there, and as when its frame is found at t = 0.
#[test]
fn a_refused_channel_leaves_the_others_as_before() {
    let mut generator = Generator::new(95);
    let mut tested = 0;
    while tested < 500 {
        let mut station = Station::random(&mut generator, &Size::SMALL);
        let code = station.read_code();
        let (length, count) = (code.frame_length(), usize::from(station.count));
        if count == 1 {
            continue;
        }
        let channel = generator.below(count);
        let place = channel * length;
        let mut found = station.clone();
        found.frames[place..place + length].fill(0);
        station.frames[place..place + code.field().size()].fill(1);
        let mut without = station.clone();
        without.frames.drain(place..place + length);
        without.count -= 1;
        let before = station.part(channel);
        let [served, served_found, served_without] =
            [&mut station, &mut found, &mut without].map(|station| station.serve().unwrap());
        assert_eq!(served.channels[channel], Ended::Refused);
        assert_eq!(station.part(channel), before);
        assert_eq!(served_found.channels[channel], Ended::Found(0));
        assert_eq!(served.order, served_found.order);
        let mut others = served.channels.clone();
        others.remove(channel);
        assert_eq!(others, served_without.channels);
        for other in (0..count).filter(|&other| other != channel) {
            assert_eq!(served.channels[other], served_found.channels[other]);
            assert_eq!(station.part(other), found.part(other));
        }
        tested += 1;
    }
}

/// One iteration goes to the first channel that is not finished; the others stay as they were received.
#[test]
fn an_allowance_of_1() {
    let mut generator = Generator::new(96);
    let (mut made, mut none) = (0, 0);
    for _ in 0..1_000 {
        let mut station = Station::random(&mut generator, &Size::SMALL);
        station.allowance = 1;
        let before = station.clone();
        let served = station.serve().unwrap();
        let first = needed(&before).iter().position(|&needed| needed > 0);
        assert_eq!(served.order, Vec::from_iter(first));
        match first {
            Some(first) => {
                assert_eq!(served.channels[first].iterations(), 1);
                made += 1;
            }
            None => none += 1,
        }
        assert_eq!(served.spent() as usize, served.order.len());
    }
    assert!(made > 500 && none > 20, "{made} {none}");
}

/// With an allowance that is enough a call is as many decodings: count times I always is, and so is what they need.
#[test]
fn an_allowance_that_is_enough() {
    let mut generator = Generator::new(97);
    for round in 0..1_000 {
        let mut station = Station::random(&mut generator, &Size::SMALL);
        let limit = station.code[5];
        let needed: usize = needed(&station).iter().sum();
        station.allowance = match round % 3 {
            0 => u32::MAX,
            1 => u32::from(station.count) * u32::from(limit),
            _ => u32::try_from(needed.max(1)).unwrap(),
        };
        let before = station.clone();
        let served = station.serve().unwrap();
        assert_eq!(served.spent() as usize, needed);
        for (channel, ended) in served.channels.iter().enumerate() {
            let (alone, part) = before.alone(channel, limit);
            match alone {
                Ok(outcome) => {
                    let expected = (outcome.status(), outcome.iterations());
                    assert_eq!((ended.status(), ended.iterations()), expected);
                }
                Err(refusal) => {
                    assert_eq!((ended.status(), *ended), (refusal.number(), Ended::Refused))
                }
            }
            assert_eq!(station.part(channel), part);
        }
    }
}
