//! Up to eight channels. Document 02, §9: "The base station decodes up to eight frames under one code line with one
//! allowance A of iterations for all."

use crate::lengths::MOST_CHANNELS;
use crate::lent::Lent;
use crate::library;
use crate::refusal::Refusal;

/// The status of a channel that is "still running when A is spent", which is no refusal.
pub const SPENT: u8 = 20;

/// What became of one channel.
#[derive(Clone, Copy, Debug, PartialEq, Eq, PartialOrd, Ord, Hash)]
#[non_exhaustive]
pub enum Channel {
    /// Its symbols satisfy every check after this many iterations.
    Found(u8),
    /// Its symbols do not satisfy every check after this many iterations, the code line's limit.
    NotFound(u8),
    /// It was still running, after this many iterations, when the allowance was spent.
    Spent(u8),
    /// Its frame is refused: its parts of the slices are unchanged, and it made no iteration.
    Refused(Refusal),
}

impl Channel {
    /// The channel with this status and this j.
    fn of(status: u8, iterations: u8) -> Channel {
        match status {
            0 => Channel::Found(iterations),
            1 => Channel::NotFound(iterations),
            SPENT => Channel::Spent(iterations),
            number => Channel::Refused(Refusal::from(u16::from(number))),
        }
    }

    /// j, the number of iterations.
    pub const fn iterations(self) -> u8 {
        match self {
            Channel::Found(j) | Channel::NotFound(j) | Channel::Spent(j) => j,
            Channel::Refused(_) => 0,
        }
    }
}

/// `struct petsivola_served`: the library's answer as it is. [`channels`] reads it.
#[derive(Clone, Copy, Debug, Default, PartialEq, Eq, Hash)]
#[repr(C)]
pub struct Answer {
    /// 0, or the refusal of the whole call.
    pub number: u8,
    /// The iterations of all channels added up.
    pub spent: u16,
    /// The status of each channel; 0 where it is not used.
    pub status: [u8; MOST_CHANNELS],
    /// j of each channel; 0 where it is not used.
    pub iterations: [u8; MOST_CHANNELS],
}

/// What became of the channels of a call that was not refused.
#[derive(Clone, Copy, Debug, PartialEq, Eq, Hash)]
pub struct Served {
    count: u8,
    answer: Answer,
}

impl Served {
    /// The iterations of all channels added up: at most the allowance, and exactly that if any channel is spent.
    pub const fn spent(&self) -> u16 {
        self.answer.spent
    }

    /// The channel with this number, counted from 0; none where the call had fewer.
    pub fn channel(&self, number: usize) -> Option<Channel> {
        self.channels().nth(number)
    }

    /// The channels by number.
    pub fn channels(&self) -> impl Iterator<Item = Channel> + '_ {
        let ended = self.answer.status.iter().zip(&self.answer.iterations);
        let used = ended.take(usize::from(self.count));
        used.map(|(&status, &iterations)| Channel::of(status, iterations))
    }
}

/// Decodes `count` frames under one code line, 1 to [`MOST_CHANNELS`], with one allowance of iterations for all.
/// Order of what refuses the whole call: 21, 22, the code line's refusals, 12, 2, 3, 4, 19.
///
/// Channel c has the part of each slice that starts at c times one channel's length, and the slices are as many times
/// as long as those of [`decode`](crate::decode). "The channels are served by number in turn, one iteration each, and
/// finished ones (found, refused or at I iterations) are skipped; a frame found at t = 0 costs nothing." "What a channel
/// not refused receives after j iterations is, but for a spent one's status, what decoding it alone with iteration
/// limit j gives".
///
/// ```
/// use petsivola::{channels, Channel, Lent};
///
/// let frame = [5, 0, 9, 7, 0, 4, 8, 3, 0, 6, 2, 10];
/// let (mut symbols, mut costs) = ([0; 6], [0; 24]);
/// let (mut store, mut margins) = ([0; 36], [0; 6]);
/// let lent = Lent {
///     code: &[2, 0, 3, 1, 16, 1, 3, 0, 0, 1, 0, 1, 1, 0, 2, 1],
///     frame: &[frame, frame].concat(),
///     symbols: &mut symbols,
///     costs: &mut costs,
///     store: &mut store,
///     margins: &mut margins,
/// };
/// let served = channels(2, 1, lent)?;
/// assert!(served.channels().eq([Channel::Found(1), Channel::Spent(0)]));
/// assert_eq!(symbols, [1, 1, 0, 1, 0, 0]);
/// # Ok::<(), petsivola::Refusal>(())
/// ```
pub fn channels(count: u8, allowance: u32, lent: Lent) -> Result<Served, Refusal> {
    match answer(count, allowance, lent) {
        answer @ Answer { number: 0, .. } => Ok(Served { count, answer }),
        Answer { number, .. } => Err(Refusal::from(u16::from(number))),
    }
}

/// The same call with the library's answer as it is, a refused one's too.
pub fn answer(count: u8, allowance: u32, lent: Lent) -> Answer {
    library::channels(count, allowance, lent)
}

#[cfg(test)]
mod tests {
    use super::*;

    /// No answer makes the wrapper panic, not even one that the proved library never gives.
    #[test]
    fn every_status_is_a_channel() {
        for status in 0..=u8::MAX {
            let expected = match status {
                0 => Channel::Found(7),
                1 => Channel::NotFound(7),
                20 => Channel::Spent(7),
                number => Channel::Refused(Refusal::from(u16::from(number))),
            };
            assert_eq!(Channel::of(status, 7), expected);
            let refused = matches!(expected, Channel::Refused(_));
            assert_eq!(expected.iterations(), if refused { 0 } else { 7 });
        }
    }

    #[test]
    fn the_used_channels_of_every_count() {
        let answer = Answer {
            spent: 44,
            iterations: [2, 3, 4, 5, 6, 7, 8, 9],
            ..Answer::default()
        };
        for count in 0..=u8::MAX {
            let served = Served { count, answer };
            let used = usize::from(count).min(MOST_CHANNELS);
            assert_eq!(served.channels().count(), used);
            assert_eq!(served.channel(used), None);
            assert_eq!(served.channel(usize::MAX), None);
            let first = (count > 0).then_some(Channel::Found(2));
            assert_eq!((served.channel(0), served.spent()), (first, 44));
        }
    }

    /// The layout that `include/petsivola.h` has on x86-64.
    #[test]
    fn the_answer_is_laid_out_as_in_c() {
        use core::mem::{align_of, offset_of, size_of};
        assert_eq!((size_of::<Answer>(), align_of::<Answer>()), (20, 2));
        let places = [
            offset_of!(Answer, number),
            offset_of!(Answer, spent),
            offset_of!(Answer, status),
            offset_of!(Answer, iterations),
        ];
        assert_eq!(places, [0, 2, 4, 12]);
    }
}
