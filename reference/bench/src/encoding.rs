//! The times of encoding: symbols per second.

use crate::engines::{Engine, Results};
use crate::inputs::{self, Encodable};
use crate::same;
use crate::timing::{race, Contender, Rules};

/// Who encodes.
const ENCODING: [Engine; 2] = [Engine::Proved, Engine::Rust];

/// The messages of a round.
const MESSAGES: usize = 400;

/// What an encoding leaves.
#[derive(Clone, Debug, PartialEq)]
struct Encoded {
    written: usize,
    symbols: Vec<u8>,
}

/// Everything is filled with A5 beforehand; answer and symbols are compared. A unit is a symbol.
const RULES: Rules<Encoded> = Rules {
    spoil: |encoded| {
        encoded.written = 0xA5A5;
        encoded.symbols.fill(0xA5);
    },
    agree: |one, other| one == other,
    units: |encoded| encoded.written,
};

/// The times for one code, each the seconds of one of the N symbols: a call's time, with the reading of the
/// code line and all tests, by N.
pub struct Row {
    /// The code.
    pub code: Encodable,
    /// The encodings.
    pub encode: Results,
}

impl Row {
    /// The seconds that an engine takes for a message.
    pub fn of_message(&self, engine: Engine) -> f64 {
        self.encode.median(engine) * self.code.columns as f64
    }

    /// The symbols, N a message, that the proved library writes in a second.
    pub fn symbols_per_second(&self) -> f64 {
        1.0 / self.encode.median(Engine::Proved)
    }
}

/// Measures one code, with messages of its own in each round.
pub fn measure(code: Encodable, rounds: usize) -> Row {
    let mut encode = Results::default();
    for round in 0..rounds {
        let messages = inputs::messages(&code, round, MESSAGES);
        let mut contenders = ENCODING.map(|engine| contender(engine, &code, &messages));
        let times = race(&mut contenders, round, &RULES);
        encode.append(&ENCODING, times);
    }
    Row { code, encode }
}

/// An engine on the messages of a round.
fn contender<'a>(
    engine: Engine,
    code: &'a Encodable,
    messages: &'a [Vec<u8>],
) -> Contender<'a, Vec<u8>, Encoded> {
    let lent = Encoded {
        written: 0,
        symbols: vec![0; code.columns],
    };
    match engine {
        Engine::Proved => Contender::new(messages, lent, encode_by(&code.line, petsivola::encode)),
        _ => Contender::new(messages, lent, encode_by(&code.line, same::encode)),
    }
}

/// An encoding as a call on one message.
fn encode_by<'a, E: std::fmt::Debug>(
    line: &'a [u8],
    encode: impl Fn(&[u8], &[u8], &mut [u8]) -> Result<usize, E> + 'a,
) -> impl FnMut(&Vec<u8>, &mut Encoded) + 'a {
    move |message, out| {
        let answer = encode(line, message, &mut out.symbols);
        out.written = answer.expect("an accepted message");
    }
}
