//! The register window. Document 02, §8: "The receiver board drives decoding through six bytes: 0 command,
//! 1 state, 2 refusal number, 3 iterations done, 4 interrupt mask, 5 pending."

use crate::code::Code;
use crate::lent::Lent;
use crate::machine::{accept, Machine};
use crate::record::has_accepted_form;
use crate::refusal::Refusal;

/// Byte 0: "byte 0 always reads 0".
pub const COMMAND: u8 = 0;
/// Byte 1.
pub const STATE: u8 = 1;
/// Byte 2.
pub const REFUSAL: u8 = 2;
/// Byte 3.
pub const ITERATIONS: u8 = 3;
/// Byte 4.
pub const MASK: u8 = 4;
/// Byte 5.
pub const PENDING: u8 = 5;

/// "Command 1 loads the lent code and frame and runs the first test"
pub const LOAD: u8 = 1;
/// "2 runs one iteration if running"
pub const ITERATE: u8 = 2;
/// "3 clears pending"
pub const CLEAR: u8 = 3;

/// "States: 0 idle, 1 running, 2 found, 3 not found, 4 refused."
pub const IDLE: u8 = 0;
/// State 1.
pub const RUNNING: u8 = 1;
/// State 2.
pub const FOUND: u8 = 2;
/// State 3.
pub const NOT_FOUND: u8 = 3;
/// State 4.
pub const REFUSED: u8 = 4;

/// "Bit 0 of pending is set on entering 2 or 3"
pub const PENDING_RESULT: u8 = 1;
/// "bit 1 on entering 4"
pub const PENDING_REFUSAL: u8 = 2;

/// "2 with byte 3 at 255" does nothing.
const LAST_ITERATION: u8 = 255;
/// "13 for a cost above 510"
const MOST_COST: u16 = 510;

/// The registers from byte 1 on. "All bytes start at 0": the default is idle.
#[derive(Clone, Copy, Debug, Default, PartialEq, Eq, Hash)]
pub struct Window {
    /// Byte 1.
    pub state: u8,
    /// Byte 2: "byte 2 shows an existing one, else 0".
    pub refusal: u8,
    /// Byte 3, t.
    pub iterations: u8,
    /// Byte 4.
    pub mask: u8,
    /// Byte 5.
    pub pending: u8,
}

impl Window {
    /// Writes one byte. "A write outside bytes 0 and 4 is ignored"; among the commands, "other values, and 2
    /// with byte 3 at 255, do nothing".
    pub fn write(&mut self, address: u8, value: u8, lent: Lent) {
        match (address, value) {
            (COMMAND, LOAD) => self.show(load(lent)),
            (COMMAND, ITERATE) if self.state == RUNNING && self.iterations != LAST_ITERATION => {
                self.show(iterate(self.iterations, lent));
            }
            (COMMAND, CLEAR) => self.pending = 0,
            (MASK, mask) => self.mask = mask,
            _ => (),
        }
    }

    /// Reads one byte: "a read past byte 5 gives 0".
    pub fn read(&self, address: u8) -> u8 {
        match address {
            STATE => self.state,
            REFUSAL => self.refusal,
            ITERATIONS => self.iterations,
            MASK => self.mask,
            PENDING => self.pending,
            _ => 0,
        }
    }

    /// "The interrupt is raised when mask and pending share a bit."
    pub fn interrupt(&self) -> bool {
        self.mask & self.pending != 0
    }

    /// Shows how a load or an iteration ended: the state with t, or a refusal. "mask and pending are kept", but
    /// for the bit that is set; "Entering 4 changes no buffer and sets byte 3 to 0."
    fn show(&mut self, ended: Result<(u8, u8), Refusal>) {
        let (state, refusal, iterations) = match ended {
            Ok((state, t)) => (state, 0, t),
            Err(refusal) => (REFUSED, refusal.number(), 0),
        };
        (self.state, self.refusal, self.iterations) = (state, refusal, iterations);
        self.pending |= match state {
            FOUND | NOT_FOUND => PENDING_RESULT,
            REFUSED => PENDING_REFUSAL,
            _ => 0,
        };
    }
}

impl From<[u8; 5]> for Window {
    /// The window with these bytes 1 to 5, whether or not a list of writes leaves them.
    fn from([state, refusal, iterations, mask, pending]: [u8; 5]) -> Window {
        Window {
            state,
            refusal,
            iterations,
            mask,
            pending,
        }
    }
}

/// "After a load the state is 4 if decoding would refuse, else 2 if the test holds, else 1."
fn load(lent: Lent) -> Result<(u8, u8), Refusal> {
    let code = accepted(&lent)?;
    let machine = Machine::start(&code, lent.frame);
    let state = match machine.satisfies_every_check() {
        true => FOUND,
        false => RUNNING,
    };
    fill(lent, &machine);
    Ok((state, 0))
}

/// "While running, command 2 first tests decoding's refusals, then 13 for a cost above 510, or a column without
/// a 0, in the cost buffer's used part, then, if t is not 0, 16 for each stored record." "after it the state is 2
/// if the test holds, else 3 if t is I or more, else 1."
fn iterate(t: u8, lent: Lent) -> Result<(u8, u8), Refusal> {
    let code = accepted(&lent)?;
    if !costs_are_accepted(&code, lent.costs) {
        return Err(Refusal::NoZeroCost);
    }
    if t != 0 && !records_are_accepted(&code, lent.store) {
        return Err(Refusal::Record);
    }
    let mut machine = Machine::going_on(&code, lent.costs, lent.store, t);
    machine.iterate();
    let t = machine.iterations;
    let state = match machine.satisfies_every_check() {
        true => FOUND,
        false if t >= code.limit => NOT_FOUND,
        false => RUNNING,
    };
    fill(lent, &machine);
    Ok((state, t))
}

/// Whether 13 does not apply to a cost buffer.
fn costs_are_accepted(code: &Code, costs: &[u16]) -> bool {
    let used = &costs[..code.frame_length()];
    used.iter().all(|&cost| cost <= MOST_COST)
        && used
            .chunks(code.field().size())
            .all(|column| column.contains(&0))
}

/// Whether 16 does not apply to a store.
fn records_are_accepted(code: &Code, store: &[u8]) -> bool {
    let records = code.records(store);
    let mut with_checks = code.checks.iter().zip(records);
    with_checks.all(|(check, record)| has_accepted_form(code.rule(), check.weights.len(), record))
}

/// The code, or decoding's refusal.
fn accepted(lent: &Lent) -> Result<Code, Refusal> {
    accept(lent.code, lent.frame, lent.lengths())
}

/// "After each of them that is not refused the buffers hold the decisions, margins, costs and records of that
/// moment (at t = 0 the store is untouched)."
fn fill(lent: Lent, machine: &Machine) {
    machine.fill(lent.symbols, lent.costs, lent.store, lent.margins);
}
