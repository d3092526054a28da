//! `encode`.

use reference_decoder::encode::has_encoding_form;
use reference_decoder::sample::{self, Generator, Miss, Size};
use reference_decoder::{code_line, Code};

use super::lending::Lending;
use super::{accepted_or_refused, class_of, first_byte, of_library, of_reference, EntryPoint};
use crate::comparison::{Comparison, Difference, Inputs};
use crate::lent::{length_around, length_enough};
use crate::tally::{Class, Tally};

/// `encode`.
pub const ENCODE: EntryPoint = EntryPoint {
    name: "encode",
    expected,
    call,
    every,
};

const LEAST_COLUMNS: &str = "N 2";
const LEAST_CHECKS: &str = "M 1";
const LEAST_MESSAGE: &str = "N - M 1";
const LEAST_DEGREE: &str = "degree 2";
const MOST_COLUMNS: &str = "N 256";
const MOST_CHECKS: &str = "M 128";
const MOST_EDGES: &str = "1,024 edges";
const MOST_DEGREE: &str = "degree 32";
const EXACT_BUFFER: &str = "a buffer of N symbols";
const BOUNDS: [&str; 9] = [
    LEAST_COLUMNS,
    LEAST_CHECKS,
    LEAST_MESSAGE,
    LEAST_DEGREE,
    MOST_COLUMNS,
    MOST_CHECKS,
    MOST_EDGES,
    MOST_DEGREE,
    EXACT_BUFFER,
];

const LENGTH_BELOW: &str = "18 by one symbol too few alone";
const LENGTH_ABOVE: &str = "18 by one symbol too many alone";
const SYMBOL_Q: &str = "18 by the symbol q alone";
const BUFFER_SHORT_BY_ONE: &str = "2 by one symbol of room";
const CODE_BEFORE_FORM: &str = "a code refusal where the form lacked";
const FORM_BEFORE_MESSAGE: &str = "17 where 18 applies";
const FORM_BEFORE_BUFFER: &str = "17 where 2 applies";
const MESSAGE_BEFORE_BUFFER: &str = "18 where 2 applies";
const CAUSES: [&str; 8] = [
    LENGTH_BELOW,
    LENGTH_ABOVE,
    SYMBOL_Q,
    BUFFER_SHORT_BY_ONE,
    CODE_BEFORE_FORM,
    FORM_BEFORE_MESSAGE,
    FORM_BEFORE_BUFFER,
    MESSAGE_BEFORE_BUFFER,
];

/// What a code that misses the form in this way is counted as.
fn missed(miss: Miss) -> &'static str {
    match miss {
        Miss::HigherColumn => "17 by a higher column",
        Miss::OwnColumnMissing => "17 by a missing column",
        Miss::ChecksSwapped => "17 by two checks swapped",
        Miss::ColumnMore => "17 by a column more",
        Miss::SquareCode => "17 by N = M",
        Miss::FewColumns => "17 by N below M",
    }
}

fn expected() -> Vec<Class> {
    let mut classes = accepted_or_refused(&[2, 5, 6, 7, 8, 9, 10, 11, 17, 18]);
    let seen = first_byte::names().chain(BOUNDS).chain(CAUSES);
    classes.extend(seen.chain(Miss::ALL.map(missed)).map(Class::Seen));
    classes
}

/// A random call.
fn call(generator: &mut Generator, tally: &mut Tally) -> Result<(), Difference> {
    let size = size(generator);
    let (code, mut input) = Input::accepted(generator, &size);
    input.damage_some(generator, &code);
    compare(generator, &input, tally)
}

/// A call with every first byte.
fn every(tally: &mut Tally) -> Result<(), Difference> {
    let mut generator = Generator::new(0);
    for first in first_byte::ALL {
        let accepted_first = first_byte::accepted_or_drawn(&mut generator, first);
        let size = first_byte::small_codes(accepted_first);
        let (_, mut input) = Input::accepted(&mut generator, &size);
        input.line[0] = first;
        compare(&mut generator, &input, tally)?;
    }
    Ok(())
}

/// The size of a code: small ones are many, and those at the limits few.
fn size(generator: &mut Generator) -> Size {
    match generator.below(40) {
        0 => Size::FULL,
        1 => Size::MOST_CHECKS,
        2 => Size::MOST_DEGREE,
        3..12 => Size::MEDIUM,
        _ => Size::SMALL,
    }
}

/// A code line, a message, and the length of the symbol buffer.
struct Input {
    line: Vec<u8>,
    /// How the code misses the form, where it was made to.
    miss: Option<Miss>,
    message: Vec<u8>,
    length: usize,
}

impl Input {
    /// An accepted input of the size, with its code.
    fn accepted(generator: &mut Generator, size: &Size) -> (Code, Input) {
        let code = sample::encodable_code(generator, size);
        let input = Input {
            message: sample::message(generator, &code),
            length: length_enough(generator, code.n),
            line: code.line(),
            miss: None,
        };
        (code, input)
    }

    /// Damages each part now and then, several at once too, so that the order of refusals matters.
    fn damage_some(&mut self, generator: &mut Generator, code: &Code) {
        if generator.once_in(4) {
            let miss = generator.one_of(&Miss::ALL);
            if let Some(code) = sample::near_miss(generator, code, miss) {
                (self.line, self.miss) = (code.line(), Some(miss));
            }
        }
        if generator.once_in(5) {
            self.line = sample::damaged_code(generator, &self.line);
        }
        if generator.once_in(5) {
            let q = code.field().size();
            self.message = sample::damaged_message(generator, q, &self.message);
        }
        if generator.once_in(3) {
            self.length = length_around(generator, code.n);
        }
    }
}

fn compare(generator: &mut Generator, input: &Input, tally: &mut Tally) -> Result<(), Difference> {
    let mut lent = Lending::new(generator, [&input.line, &input.message], input.length);
    let mut lent_expected = lent.clone();
    let expected = lent_expected.to(|[code, message], symbols| {
        of_reference(reference_decoder::encode(code, message, symbols))
    });

    tally.answer(class_of(&expected));
    see(tally, input, &expected);
    let mut comparison = Comparison::default();
    // The second encoding is in the used buffer and gives the same: nothing was left behind.
    for _ in 0..2 {
        let answer = lent
            .to(|[code, message], symbols| of_library(petsivola::encode(code, message, symbols)));
        comparison.answers(&answer, &expected);
        let names = (["code", "message"], "symbols");
        lent.compare(&mut comparison, names, &lent_expected);
    }
    comparison.end("encode", || {
        Inputs::default()
            .bytes("code", &input.line)
            .bytes("message", &input.message)
            .number("symbol buffer length", input.length)
    })
}

/// Counts what an input and its answer show.
fn see(tally: &mut Tally, input: &Input, expected: &Result<usize, u16>) {
    let Ok(code) = code_line(&input.line) else {
        // The form lacked before the line was damaged.
        tally.seen(CODE_BEFORE_FORM, input.miss.is_some());
        return;
    };
    let short = input.length < code.n;
    if !has_encoding_form(&code) {
        see_miss(tally, input, &code, short);
        return;
    }
    let (count, needed) = (input.message.len(), code.n - code.m);
    let q = code.field().size();
    let greatest = input.message.iter().copied().max().map_or(0, usize::from);
    match expected {
        Ok(_) => see_accepted(tally, &code, input.length),
        Err(18) => {
            tally.seen(LENGTH_BELOW, count + 1 == needed && greatest < q);
            tally.seen(LENGTH_ABOVE, count == needed + 1 && greatest < q);
            tally.seen(SYMBOL_Q, count == needed && greatest == q);
            tally.seen(MESSAGE_BEFORE_BUFFER, short);
        }
        Err(_) => tally.seen(BUFFER_SHORT_BY_ONE, input.length + 1 == code.n),
    }
}

/// Counts what an accepted code that lacks the form shows.
fn see_miss(tally: &mut Tally, input: &Input, code: &Code, short: bool) {
    if let Some(miss) = input.miss {
        tally.seen(missed(miss), true);
    }
    let fits = code.m + input.message.len() == code.n;
    let mut symbols = input.message.iter();
    let below_q = symbols.all(|&symbol| code.field().contains(symbol));
    tally.seen(FORM_BEFORE_MESSAGE, !fits || !below_q);
    tally.seen(FORM_BEFORE_BUFFER, short);
}

/// Counts what an accepted encoding shows.
fn see_accepted(tally: &mut Tally, code: &Code, length: usize) {
    let degrees = code.checks.iter().map(|check| check.weights.len());
    first_byte::see(tally, code.first);
    tally.seen(LEAST_COLUMNS, code.n == 2);
    tally.seen(LEAST_CHECKS, code.m == 1);
    tally.seen(LEAST_MESSAGE, code.n == code.m + 1);
    tally.seen(LEAST_DEGREE, degrees.clone().min() == Some(2));
    tally.seen(MOST_COLUMNS, code.n == 256);
    tally.seen(MOST_CHECKS, code.m == 128);
    tally.seen(MOST_EDGES, degrees.clone().sum::<usize>() == 1_024);
    tally.seen(MOST_DEGREE, degrees.max() == Some(32));
    tally.seen(EXACT_BUFFER, length == code.n);
}
