//! Several channels on the documents' own values and on inputs that no caller means. The comparison with the reference
//! decoder is in the package `compare`.

use petsivola::channels::{answer, Answer};
use petsivola::lengths::MOST_CHANNELS;
use petsivola::{channels, decode, Channel, Lent, Outcome, Refusal, Served};

/// Document 01's code with an iteration limit of 3.
const CODE: [u8; 16] = [2, 0, 3, 1, 16, 3, 3, 0, 0, 1, 0, 1, 1, 0, 2, 1];
/// A frame that is found after one iteration.
const LATER: [u8; 12] = [5, 0, 9, 7, 0, 4, 8, 3, 0, 6, 2, 10];
/// A frame that is found at t = 0.
const AT_ONCE: [u8; 12] = [0, 5, 9, 7, 0, 4, 8, 3, 0, 6, 2, 10];
/// A frame whose first column has no 0.
const REFUSED: [u8; 12] = [5, 1, 9, 7, 0, 4, 8, 3, 0, 6, 2, 10];

/// Frames and the buffers for them, full of A5 and one element longer than they need be.
#[derive(Clone, Debug, PartialEq)]
struct Station {
    code: Vec<u8>,
    frames: Vec<u8>,
    symbols: Vec<u8>,
    costs: Vec<u16>,
    store: Vec<u8>,
    margins: Vec<u16>,
}

impl Station {
    fn of(frames: &[[u8; 12]]) -> Station {
        let count = frames.len();
        Station {
            code: CODE.to_vec(),
            frames: frames.concat(),
            symbols: vec![0xA5; 3 * count + 1],
            costs: vec![0xA5A5; 12 * count + 1],
            store: vec![0xA5; 18 * count + 1],
            margins: vec![0xA5A5; 3 * count + 1],
        }
    }

    fn lend(&mut self) -> Lent<'_> {
        Lent {
            code: &self.code,
            frame: &self.frames,
            symbols: &mut self.symbols,
            costs: &mut self.costs,
            store: &mut self.store,
            margins: &mut self.margins,
        }
    }

    fn serve(&mut self, count: u8, allowance: u32) -> Result<Served, Refusal> {
        channels(count, allowance, self.lend())
    }
}

#[test]
fn a_channel_of_every_kind() {
    let mut station = Station::of(&[LATER, REFUSED, AT_ONCE, LATER]);
    let served = station.serve(4, 1).unwrap();
    let expected = [
        Channel::Found(1),
        Channel::Refused(Refusal::NoZeroCost),
        Channel::Found(0),
        Channel::Spent(0),
    ];
    assert!(served.channels().eq(expected));
    assert_eq!((served.spent(), served.channel(3)), (1, Some(expected[3])));
    assert_eq!(served.channel(4), None);
    let symbols = [1, 1, 0, 0xA5, 0xA5, 0xA5, 0, 0, 0, 1, 0, 0, 0xA5];
    assert_eq!(station.symbols, symbols);
    assert_eq!(station.costs[12..24], [0xA5A5; 12]);
    // "for j = 0, the first decisions with their margins, the frame as costs and an untouched store"
    assert_eq!(
        station.costs[36..],
        LATER
            .map(u16::from)
            .into_iter()
            .chain([0xA5A5])
            .collect::<Vec<_>>()
    );
    assert_eq!(station.margins[9..], [5, 3, 2, 0xA5A5]);
    assert_eq!(station.store[18..], [0xA5; 55]);
}

#[test]
fn channels_that_are_not_found() {
    // Two checks that the word 0 alone satisfies, with g = 1.
    let code = [2, 0, 2, 2, 1, 3, 2, 0, 0, 1, 0, 1, 1, 2, 0, 0, 1, 0, 1, 2];
    let frame = [255, 0, 255, 255, 255, 0, 255, 255];
    let (mut symbols, mut costs) = ([0; 4], [0; 16]);
    let (mut store, mut margins) = ([0; 68], [0; 4]);
    for (allowance, expected) in [
        (5, [Channel::NotFound(3), Channel::Spent(2)]),
        (6, [Channel::NotFound(3); 2]),
        (u32::MAX, [Channel::NotFound(3); 2]),
    ] {
        let lent = Lent {
            code: &code,
            frame: &[frame, frame].concat(),
            symbols: &mut symbols,
            costs: &mut costs,
            store: &mut store,
            margins: &mut margins,
        };
        let served = channels(2, allowance, lent).unwrap();
        assert!(served.channels().eq(expected));
        assert_eq!(u32::from(served.spent()), allowance.min(6));
    }
}

#[test]
fn an_allowance_that_is_enough_gives_eight_decodings() {
    let frames = [
        LATER, AT_ONCE, REFUSED, LATER, LATER, AT_ONCE, REFUSED, LATER,
    ];
    let mut station = Station::of(&frames);
    let mut alone = station.clone();
    let served = station.serve(8, 24).unwrap();
    for (channel, frame) in frames.iter().enumerate() {
        let outcome = decode(
            &CODE,
            frame,
            &mut alone.symbols[3 * channel..][..3],
            &mut alone.costs[12 * channel..][..12],
            &mut alone.store[18 * channel..][..18],
            &mut alone.margins[3 * channel..][..3],
        );
        let expected = match outcome {
            Ok(Outcome::Found(t)) => Channel::Found(t),
            Ok(Outcome::NotFound(t)) => Channel::NotFound(t),
            Err(refusal) => Channel::Refused(refusal),
        };
        assert_eq!(served.channel(channel), Some(expected));
    }
    assert_eq!((served.spent(), station), (4, alone));
}

#[test]
fn refused_calls_change_nothing() {
    type Change = fn(&mut Station);
    let changes: [(Change, Refusal); 7] = [
        (|station| station.code[4] = 17, Refusal::ScaleOrLimit),
        (|station| station.code.clear(), Refusal::CodeBytes),
        (|station| station.frames.push(0), Refusal::CostCount),
        (|station| station.symbols.truncate(5), Refusal::ShortBuffer),
        (|station| station.costs.truncate(23), Refusal::ShortCosts),
        (|station| station.store.truncate(35), Refusal::ShortStore),
        (|station| station.margins.truncate(5), Refusal::ShortMargins),
    ];
    for (change, refusal) in changes {
        let mut station = Station::of(&[LATER, REFUSED]);
        change(&mut station);
        let before = station.clone();
        assert_eq!(station.serve(2, 9), Err(refusal));
        assert_eq!(station.serve(2, 0), Err(Refusal::NoAllowance));
        for count in (0..=u8::MAX).filter(|count| !(1..=8).contains(count)) {
            assert_eq!(station.serve(count, 0), Err(Refusal::ChannelCount));
        }
        assert_eq!(station, before);
    }
}

/// "Unused channels and a refused call: 0."
#[test]
fn what_is_not_used_is_0() {
    let mut station = Station::of(&[LATER, REFUSED]);
    let expected = Answer {
        number: 0,
        spent: 1,
        status: [0, 13, 0, 0, 0, 0, 0, 0],
        iterations: [1, 0, 0, 0, 0, 0, 0, 0],
    };
    assert_eq!(answer(2, 9, station.lend()), expected);
    station.store.clear();
    let refused = Answer {
        number: 4,
        ..Answer::default()
    };
    assert_eq!(answer(2, 9, station.lend()), refused);
}

#[test]
fn empty_slices_are_answered() {
    for count in 0..=u8::MAX {
        for allowance in [0, 1, u32::MAX] {
            let expected = match (usize::from(count), allowance) {
                (1..=MOST_CHANNELS, 0) => Refusal::NoAllowance,
                (1..=MOST_CHANNELS, _) => Refusal::CodeBytes,
                _ => Refusal::ChannelCount,
            };
            assert_eq!(channels(count, allowance, Lent::default()), Err(expected));
        }
    }
}
