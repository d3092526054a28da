//! Up to eight channels. Document 02, §9: "The base station decodes up to eight frames under one code line with
//! one allowance A of iterations for all."

use std::ops::RangeInclusive;

use crate::check::accept_costs;
use crate::code::{code_line, Code};
use crate::lent::Lent;
use crate::machine::{accept_lengths, Machine};
use crate::refusal::Refusal;

/// "21, channel count not 1 to 8"
pub const CHANNELS: RangeInclusive<u8> = 1..=8;

/// "reported as spent, status 20 with its j, which is no refusal"
pub const SPENT: u8 = 20;

/// What became of one channel.
#[derive(Clone, Copy, Debug, PartialEq, Eq)]
pub enum Ended {
    /// Its decisions satisfy every check after this many iterations.
    Found(u8),
    /// They do not after this many iterations, the limit.
    NotFound(u8),
    /// "Only 13 is a channel's own"
    Refused,
    /// "A channel still running when A is spent", after this many iterations.
    Spent(u8),
}

impl Ended {
    /// Found (0), not found (1), 13 or 20.
    pub fn status(self) -> u8 {
        match self {
            Ended::Found(_) => 0,
            Ended::NotFound(_) => 1,
            Ended::Refused => Refusal::NoZeroCost.number(),
            Ended::Spent(_) => SPENT,
        }
    }

    /// j; a refused channel makes no iteration.
    pub fn iterations(self) -> u8 {
        match self {
            Ended::Found(j) | Ended::NotFound(j) | Ended::Spent(j) => j,
            Ended::Refused => 0,
        }
    }
}

/// What became of all channels.
#[derive(Clone, Debug, PartialEq, Eq)]
pub struct Served {
    /// The channels by number.
    pub channels: Vec<Ended>,
    /// The channel of each iteration, in the order in which they were made.
    pub order: Vec<usize>,
}

impl Served {
    /// "The iterations of all results", added up.
    pub fn spent(&self) -> u32 {
        let iterations = self.channels.iter().map(|channel| channel.iterations());
        iterations.map(u32::from).sum()
    }
}

/// Decodes so many frames under one code line with an allowance of iterations. Order: "21, channel count not 1 to
/// 8, before all; 22, A is 0, after 21. Then the code's, 12, 2, 3, 4 and 19 refuse the whole call".
pub fn channels(count: u8, allowance: u32, lent: Lent) -> Result<Served, Refusal> {
    let code = accept(count, allowance, &lent)?;
    let frames = lent.frame.chunks(code.frame_length());
    let mut channels: Vec<Channel> = frames.map(|frame| Channel::start(&code, frame)).collect();
    let order = serve(&mut channels, allowance);
    let [n, costs, store, _] = code.lengths();
    for (number, channel) in channels.iter().enumerate() {
        if let Some(machine) = &channel.machine {
            machine.fill(
                part(lent.symbols, number, n),
                part(lent.costs, number, costs),
                part(lent.store, number, store),
                part(lent.margins, number, n),
            );
        }
    }
    Ok(Served {
        channels: channels.iter().map(Channel::ended).collect(),
        order,
    })
}

/// The code of a call that is not refused, "each length being the count times one channel's".
fn accept(count: u8, allowance: u32, lent: &Lent) -> Result<Code, Refusal> {
    if !CHANNELS.contains(&count) {
        return Err(Refusal::ChannelCount);
    }
    if allowance == 0 {
        return Err(Refusal::NoAllowance);
    }
    let code = code_line(lent.code)?;
    let count = usize::from(count);
    if lent.frame.len() != count * code.frame_length() {
        return Err(Refusal::CostCount);
    }
    accept_lengths(lent.lengths(), code.lengths().map(|one| count * one))?;
    Ok(code)
}

/// The part of a buffer that belongs to a channel, where one channel has this many elements.
fn part<T>(buffer: &mut [T], number: usize, one: usize) -> &mut [T] {
    &mut buffer[number * one..][..one]
}

/// "The channels are served by number in turn, one iteration each, and finished ones (found, refused or at I
/// iterations) are skipped". Answers the channel of each iteration.
fn serve(channels: &mut [Channel], allowance: u32) -> Vec<usize> {
    let mut order = Vec::new();
    let mut left = allowance;
    for number in (0..channels.len()).cycle() {
        if left == 0 || channels.iter().all(Channel::is_finished) {
            break;
        }
        if !channels[number].is_finished() {
            channels[number].iterate();
            order.push(number);
            left -= 1;
        }
    }
    order
}

/// One channel.
struct Channel<'a> {
    /// Its machine; none when its frame is refused by 13.
    machine: Option<Machine<'a>>,
    /// Whether the decisions of this moment satisfy every check.
    found: bool,
    /// I.
    limit: u8,
}

impl<'a> Channel<'a> {
    /// A channel before its first iteration. The frame has the length that the code needs.
    fn start(code: &'a Code, frame: &[u8]) -> Channel<'a> {
        let accepted = accept_costs(code.field(), code.n, frame).is_ok();
        let machine = accepted.then(|| Machine::start(code, frame));
        Channel {
            found: machine.as_ref().is_some_and(Machine::satisfies_every_check),
            machine,
            limit: code.limit,
        }
    }

    /// "finished ones (found, refused or at I iterations)"
    fn is_finished(&self) -> bool {
        !matches!(self.ended(), Ended::Spent(_))
    }

    /// What becomes of it if it gets no further iteration.
    fn ended(&self) -> Ended {
        match self.machine.as_ref().map(|machine| machine.iterations) {
            None => Ended::Refused,
            Some(j) if self.found => Ended::Found(j),
            Some(j) if j == self.limit => Ended::NotFound(j),
            Some(j) => Ended::Spent(j),
        }
    }

    /// One iteration of an unfinished channel.
    fn iterate(&mut self) {
        if let Some(machine) = &mut self.machine {
            machine.iterate();
            self.found = machine.satisfies_every_check();
        }
    }
}
