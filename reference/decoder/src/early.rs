//! Stopping inside an iteration. Document 02, §13: "Battery receivers should stop as soon as the decisions satisfy all
//! checks, tested at the start and after each check update. This is a separate call."

use crate::code::Code;
use crate::machine::{accept, Machine};
use crate::refusal::Refusal;

/// Where a decoding stopped: "the number of check updates, which is at most M times I and is the first moment in the
/// machine's sequence of updates when the test holds, or M times I when there is none".
#[derive(Clone, Copy, Debug, PartialEq, Eq)]
pub enum Stopped {
    /// The decisions satisfy every check after this many check updates, and after no fewer.
    Found(u16),
    /// The decisions satisfy every check at no moment up to this one, M times I check updates.
    NotFound(u16),
}

impl Stopped {
    /// "The status is found if the test holds at that moment, else not found": 0 or 1, as for
    /// [`Outcome`](crate::Outcome).
    pub fn status(self) -> u8 {
        match self {
            Stopped::Found(_) => 0,
            Stopped::NotFound(_) => 1,
        }
    }

    /// The number of check updates.
    pub fn updates(self) -> u16 {
        match self {
            Stopped::Found(updates) | Stopped::NotFound(updates) => updates,
        }
    }
}

/// Decodes one frame up to the first moment at which the decisions satisfy every check. "It refuses as decoding does."
/// "Symbols, margins, costs and updated records are those of that moment. Checks not yet updated keep the old bytes of
/// their place in the store".
pub fn decode_early(
    code: &[u8],
    frame: &[u8],
    symbols: &mut [u8],
    costs: &mut [u16],
    store: &mut [u8],
    margins: &mut [u16],
) -> Result<Stopped, Refusal> {
    let lengths = [symbols.len(), costs.len(), store.len(), margins.len()];
    let code = accept(code, frame, lengths)?;
    let mut machine = Machine::start(&code, frame);
    let stopped = stop(&mut machine, &code);
    machine.fill(symbols, costs, store, margins);
    Ok(stopped)
}

/// Runs a machine of the code from the start to the moment at which it stops.
fn stop(machine: &mut Machine, code: &Code) -> Stopped {
    let mut updates = 0;
    if machine.satisfies_every_check() {
        return Stopped::Found(updates);
    }
    for _ in 0..code.limit {
        machine.iterations += 1;
        for check in 0..code.m {
            machine.update(check);
            updates += 1;
            if machine.satisfies_every_check() {
                return Stopped::Found(updates);
            }
        }
    }
    Stopped::NotFound(updates)
}
