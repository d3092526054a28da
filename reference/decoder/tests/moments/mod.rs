//! A decoding that may stop inside an iteration, and the moments of the machine's run: its start and each update.

// Each test file uses a part of it.
#![allow(dead_code)]

use reference_decoder::field::sum;
use reference_decoder::machine::Machine;
use reference_decoder::sample::{self, bytes, Buffers, Generator, Size, Style};
use reference_decoder::{code_line, Code, Outcome, Stopped};

/// Two checks on two columns, g = 8, I = 3, that only the word 0 satisfies.
pub const TWO_CHECKS: &str = "020002020803 02 000001 000101 02 000001 000102";
/// A frame that is found after three updates, and by the ordinary call not after 255 iterations.
pub const FOUND_EARLY_ALONE: &str = "00010002 02020100";
/// Two checks on three columns, g = 16, I = 3, that other words satisfy too.
pub const MORE_WORDS: &str = "020003021003 03 000003 000103 000201 02 000102 000203";
/// A frame for which the two calls find different words.
pub const FOUND_AS_ANOTHER: &str = "01000000 00000202 01020003";
/// A frame that is never found with g = 1: on two columns costs below 16 are sent, scaled to 0, and nothing changes.
pub const NEVER_FOUND: &str = "0F000F0F 0F000F0F";
/// Four checks of degree 3 on six columns, g = 12, I = 8.
pub const FOUR_CHECKS: &str = "020006040C08 03000001000102000301 03000101000203000401 \
                               03000002000201000501 03000301000402000503";
/// A frame that is found inside the first iteration.
pub const ONE_WRONG: &str = "000B020C 0E08000A 00090D0C 07000D0A 0B0A0008 08070A00";
/// A frame that is found inside the third iteration.
pub const THREE_WRONG: &str = "0009030B 040F0200 0408000D 06000D0A 0B0A0008 08070A00";

/// An accepted frame and the buffers for it.
#[derive(Clone, Debug, PartialEq)]
pub struct Reception {
    pub code: Code,
    pub frame: Vec<u8>,
    pub buffers: Buffers,
}

impl Reception {
    /// Buffers a little longer than the code needs, of arbitrary content.
    pub fn new(generator: &mut Generator, code: Code, frame: Vec<u8>) -> Reception {
        let lengths = code.lengths().map(|used| used + generator.below(3));
        Reception {
            code,
            frame,
            buffers: Buffers::arbitrary(generator, lengths),
        }
    }

    /// The same from hexadecimal digits.
    pub fn of(code: &str, frame: &str) -> Reception {
        let code = code_line(&bytes(code)).expect("an accepted code line");
        Reception::new(&mut Generator::new(120), code, bytes(frame))
    }

    /// A frame that is never found, under M checks that only the word 0 satisfies.
    pub fn never_found(m: usize, limit: u8) -> Reception {
        let two = code_line(&bytes(TWO_CHECKS)).expect("an accepted code line");
        let checks = two.checks.iter().cycle().take(m).cloned().collect();
        let code = Code {
            m,
            g: 1,
            limit,
            checks,
            ..two
        };
        Reception::new(&mut Generator::new(121), code, bytes(NEVER_FOUND))
    }

    /// A random code, and a frame near a word of it or now and then any frame.
    pub fn random(generator: &mut Generator, size: &Size) -> Reception {
        let sample = sample::code(generator, size);
        let code = code_line(&sample.line).expect("an accepted code line");
        let style = generator.one_of(&Style::ALL);
        let frame = if generator.once_in(4) {
            sample::frame(generator, &code, style)
        } else {
            let wrong = generator.between(0..=code.n / 2);
            sample::noisy_frame(generator, &code, &sample.word, wrong, style)
        };
        Reception::new(generator, code, frame)
    }

    /// The same with another iteration limit.
    pub fn with_limit(mut self, limit: u8) -> Reception {
        self.code.limit = limit;
        self
    }

    /// Decodes, and stops as soon as the decisions satisfy every check.
    pub fn stop(&mut self) -> Stopped {
        let stopped = self.buffers.decode_early(&self.code.line(), &self.frame);
        stopped.expect("an accepted frame")
    }

    /// What the ordinary call answers, and the buffers as it leaves them.
    pub fn ordinary(&self) -> (Outcome, Buffers) {
        let mut buffers = self.buffers.clone();
        let outcome = buffers.decode(&self.code.line(), &self.frame);
        (outcome.expect("an accepted frame"), buffers)
    }

    /// M times I.
    pub fn most_updates(&self) -> usize {
        self.code.m * usize::from(self.code.limit)
    }

    /// The machine at the start and after each of M times I updates, also after moments at which the test holds.
    pub fn moments(&self) -> Vec<Machine<'_>> {
        let mut moments = vec![Machine::start(&self.code, &self.frame)];
        for update in 0..self.most_updates() {
            let mut next = moments[update].clone();
            next.update(update % self.code.m);
            moments.push(next);
        }
        moments
    }

    /// The machine after so many updates.
    pub fn moment(&self, updates: usize) -> Machine<'_> {
        let mut machine = Machine::start(&self.code, &self.frame);
        for update in 0..updates {
            machine.update(update % self.code.m);
        }
        machine
    }

    /// Whether the decisions of a moment satisfy every check, without the machine's own test.
    pub fn holds(&self, moment: &Machine) -> bool {
        let decision = |column: usize| moment.costs[column].iter().position(|&cost| cost == 0);
        self.code.checks.iter().all(|check| {
            let terms = check.columns.iter().zip(&check.weights);
            let terms = terms.map(|(&column, &weight)| {
                let symbol = decision(column).expect("a cost of 0");
                let symbol = u8::try_from(symbol).expect("a symbol is below q");
                self.code.field().product(weight, symbol)
            });
            sum(terms) == 0
        })
    }
}

/// Random receptions, each before and after its call.
pub fn receptions(seed: u64, rounds: usize, mut each: impl FnMut(&Reception, &Reception, Stopped)) {
    let mut generator = Generator::new(seed);
    for round in 0..rounds {
        let size = match round % 16 {
            0 => Size::MEDIUM,
            _ => Size::SMALL,
        };
        let before = Reception::random(&mut generator, &size);
        let mut after = before.clone();
        let stopped = after.stop();
        each(&before, &after, stopped);
    }
}
