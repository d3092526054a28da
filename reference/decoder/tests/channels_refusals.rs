//! Document 02, §9: "New: 21, channel count not 1 to 8, before all; 22, A is 0, after 21. Then the code's, 12, 2, 3, 4
//! and 19 refuse the whole call, each length being the count times one channel's."

mod station;

use reference_decoder::Refusal;
use station::{Station, FOUND_AT_ONCE, FOUND_LATER, REFUSED};

/// Three channels under document 01's code; each buffer is as long as they need.
fn station() -> Station {
    let mut station = Station::of(&[FOUND_LATER, REFUSED, FOUND_AT_ONCE], 9);
    let needed = station.read_code().lengths().map(|one| 3 * one);
    [station.buffers, _] = station.buffers.split(needed);
    station
}

/// The number by which the whole call is refused on a changed station; 0 where it is not. A refused call changes
/// nothing.
fn refused(change: impl FnOnce(&mut Station)) -> u8 {
    let mut station = station();
    change(&mut station);
    let before = station.clone();
    let number = station.serve().err().map_or(0, Refusal::number);
    if number != 0 {
        assert_eq!(station, before);
    }
    number
}

type Change = fn(&mut Station);

/// Every refusal of the whole call with a change that causes it, in the documents' order.
const CHANGES: [(u8, Change); 14] = [
    (21, |station| station.count = 0),
    (22, |station| station.allowance = 0),
    (5, |station| station.code.truncate(5)),
    (6, |station| station.code[0] = 1),
    (7, |station| station.code[3] = 0),
    (8, |station| station.code[4] = 17),
    (9, |station| station.code[6] = 1),
    (10, |station| station.code[8] = 3),
    (11, |station| station.code[9] = 0),
    (12, |station| station.frames.push(0)),
    (2, |station| station.buffers.symbols.truncate(8)),
    (3, |station| station.buffers.costs.truncate(35)),
    (4, |station| station.buffers.store.truncate(53)),
    (19, |station| station.buffers.margins.truncate(8)),
];

#[test]
fn each_number_and_its_place_in_the_order() {
    assert_eq!(refused(|_| ()), 0);
    for (place, (number, change)) in CHANGES.iter().enumerate() {
        assert_eq!(refused(change), *number);
        // The first code refusal is of a line that ends; what comes after it in the line is not read.
        for (_, later) in CHANGES[place + 1..]
            .iter()
            .filter(|(other, _)| *number != 5 || *other > 11)
        {
            let both = |station: &mut Station| {
                later(station);
                change(station);
            };
            assert_eq!(refused(both), *number);
        }
    }
}

#[test]
fn counts_of_21() {
    for count in 0..=u8::MAX {
        let with = |change: Change| {
            refused(|station| {
                station.count = count;
                change(station);
            })
        };
        let expected = match count {
            3 => 0,
            // The frames are those of three channels.
            1..=8 => 12,
            _ => 21,
        };
        assert_eq!(with(|_| ()), expected);
        let without_allowance = if (1..=8).contains(&count) { 22 } else { 21 };
        assert_eq!(with(|station| station.allowance = 0), without_allowance);
        assert_eq!(
            with(|station| station.code.clear()),
            if (1..=8).contains(&count) { 5 } else { 21 }
        );
    }
}

/// "each length being the count times one channel's"
#[test]
fn lengths_around_each_bound() {
    for length in 0..50 {
        let frames = refused(|station| station.frames.resize(length, 0));
        assert_eq!(frames, if length == 36 { 0 } else { 12 });
    }
    type Resize = fn(&mut Station, usize);
    let bounds: [(u8, usize, Resize); 4] = [
        (2, 9, |station, length| {
            station.buffers.symbols.resize(length, 7)
        }),
        (3, 36, |station, length| {
            station.buffers.costs.resize(length, 7)
        }),
        (4, 54, |station, length| {
            station.buffers.store.resize(length, 7)
        }),
        (19, 9, |station, length| {
            station.buffers.margins.resize(length, 7)
        }),
    ];
    for (number, needed, resize) in bounds {
        for length in 0..needed + 9 {
            let expected = if length < needed { number } else { 0 };
            assert_eq!(refused(|station| resize(station, length)), expected);
        }
    }
}

/// 13 refuses no call, not even where every channel has it: nothing is spent and nothing changes.
#[test]
fn every_channel_refused() {
    let mut station = Station::of(&[REFUSED; 8], 1);
    let before = station.clone();
    let served = station.serve().unwrap();
    assert!(served
        .channels
        .iter()
        .all(|ended| (ended.status(), ended.iterations()) == (13, 0)));
    assert_eq!(served.channels.len(), 8);
    assert_eq!((served.spent(), station), (0, before));
}
