//! `channels`.

mod inputs;
mod seen;

use petsivola::channels::Answer;
use reference_decoder::sample::{Generator, Size};
use reference_decoder::{Refusal, Served};

use super::{buffers, first_byte, EntryPoint};
use crate::comparison::Difference;
use crate::tally::{Class, Tally};
use inputs::Call;

/// `channels`.
pub const CHANNELS: EntryPoint = EntryPoint {
    name: "channels",
    expected: seen::expected,
    call,
    every,
};

/// A random call.
fn call(generator: &mut Generator, tally: &mut Tally) -> Result<(), Difference> {
    let (size, allowances) = inputs::size(generator);
    let (code, mut call) = Call::accepted(generator, &size, allowances);
    if generator.once_in(2) {
        call.damage_some(generator, &code);
    }
    compare(generator, &call, tally)
}

/// A call with every first byte; then with every count, and with every allowance that may be too small.
fn every(tally: &mut Tally) -> Result<(), Difference> {
    let mut generator = Generator::new(0);
    for first in first_byte::ALL {
        let accepted_first = first_byte::accepted_or_drawn(&mut generator, first);
        let size = first_byte::small_codes(accepted_first);
        let (_, mut call) = Call::accepted(&mut generator, &size, inputs::Allowances::Any);
        call.input.line[0] = first;
        compare(&mut generator, &call, tally)?;
    }
    let (code, mut call) = Call::accepted(&mut generator, &Size::SMALL, inputs::Allowances::Any);
    for count in 0..=u8::MAX {
        call.count = count;
        for allowance in [0, 1, u32::MAX] {
            call.allowance = allowance;
            compare(&mut generator, &call, tally)?;
        }
    }
    for count in 1..=8 {
        let mut call = Call::of(&mut generator, &code, count);
        for allowance in 0..=u32::from(count) * u32::from(code.limit) + 1 {
            call.allowance = allowance;
            compare(&mut generator, &call, tally)?;
        }
    }
    Ok(())
}

fn compare(generator: &mut Generator, call: &Call, tally: &mut Tally) -> Result<(), Difference> {
    let (count, allowance) = (call.count, call.allowance);
    let (expected, filled, comparison) = buffers::compare(
        generator,
        &call.input,
        |lent| petsivola::channels::answer(count, allowance, lent),
        |lent| answer(reference_decoder::channels(count, allowance, lent)),
    );
    tally.answer(match expected.number {
        0 => Class::Accepted,
        number => Class::Refused(u16::from(number)),
    });
    seen::see(tally, call, &expected, &filled);
    comparison.end("channels", || call.inputs())
}

/// The reference decoder's answer as the library gives it: "Unused channels and a refused call: 0."
fn answer(served: Result<Served, Refusal>) -> Answer {
    let mut answer = Answer::default();
    match served {
        Ok(served) => {
            answer.spent = u16::try_from(served.spent()).expect("at most 8 times 255");
            for (place, ended) in served.channels.iter().enumerate() {
                answer.status[place] = ended.status();
                answer.iterations[place] = ended.iterations();
            }
        }
        Err(refusal) => answer.number = refusal.number(),
    }
    answer
}
