//! The register window. Document 02, §8: "The receiver board drives decoding through six bytes: 0 command, 1 state,
//! 2 refusal number, 3 iterations done, 4 interrupt mask, 5 pending."

use crate::lent::Lent;
use crate::library::{self, Registers};
use crate::refusal::Refusal;

/// The address of the command: "byte 0 always reads 0".
pub const COMMAND: u8 = 0;
/// The address of the state.
pub const STATE: u8 = 1;
/// The address of the refusal number.
pub const REFUSAL: u8 = 2;
/// The address of the iterations done.
pub const ITERATIONS: u8 = 3;
/// The address of the interrupt mask.
pub const MASK: u8 = 4;
/// The address of what is pending.
pub const PENDING: u8 = 5;

/// "Command 1 loads the lent code and frame and runs the first test"
pub const LOAD: u8 = 1;
/// "2 runs one iteration if running"
pub const ITERATE: u8 = 2;
/// "3 clears pending"
pub const CLEAR: u8 = 3;

/// The bit of mask and pending that a result sets, found or not found.
pub const RESULT_BIT: u8 = 1;
/// The bit of mask and pending that a refusal sets.
pub const REFUSAL_BIT: u8 = 2;

/// "States: 0 idle, 1 running, 2 found, 3 not found, 4 refused."
#[derive(Clone, Copy, Debug, PartialEq, Eq, PartialOrd, Ord, Hash)]
#[non_exhaustive]
pub enum State {
    /// Nothing was loaded yet.
    Idle,
    /// A further iteration is wanted.
    Running,
    /// The symbols satisfy every check.
    Found,
    /// The symbols do not satisfy every check after the iterations that the code line allows.
    NotFound,
    /// The last load or iteration was refused.
    Refused(Refusal),
    /// A byte that no list of writes from idle leaves; [`Window::of`] may be given it.
    Unlisted(u8),
}

/// The registers of a window. They are all that is kept between writes; the default is idle: "All bytes start
/// at 0".
///
/// ```
/// use petsivola::{lengths, Lent, State, Window};
///
/// let mut symbols = [0; 3];
/// let mut costs = [0; 12];
/// let mut store = [0; lengths::MOST_STORE];
/// let mut margins = [0; 3];
/// let mut lent = Lent {
///     code: &[2, 0, 3, 1, 16, 1, 3, 0, 0, 1, 0, 1, 1, 0, 2, 1],
///     frame: &[5, 0, 9, 7, 0, 4, 8, 3, 0, 6, 2, 10],
///     symbols: &mut symbols,
///     costs: &mut costs,
///     store: &mut store,
///     margins: &mut margins,
/// };
/// let mut window = Window::IDLE;
/// window.set_mask(petsivola::window::RESULT_BIT | petsivola::window::REFUSAL_BIT);
/// window.load(lent.reborrow());
/// while !window.interrupt() {
///     window.iterate(lent.reborrow());
/// }
/// assert_eq!((window.state(), window.iterations()), (State::Found, 1));
/// assert_eq!(symbols, [1, 1, 0]);
/// ```
#[derive(Clone, Copy, Debug, Default, PartialEq, Eq, Hash)]
pub struct Window(Registers);

impl Window {
    /// "All bytes start at 0".
    pub const IDLE: Window = Window::of([0; 5]);

    /// The window with these bytes 1 to 5.
    pub const fn of([state, refusal, iterations, mask, pending]: [u8; 5]) -> Window {
        Window(Registers {
            state,
            refusal,
            iterations,
            mask,
            pending,
        })
    }

    /// Bytes 1 to 5.
    pub const fn registers(self) -> [u8; 5] {
        let registers = self.0;
        [
            registers.state,
            registers.refusal,
            registers.iterations,
            registers.mask,
            registers.pending,
        ]
    }

    /// Writes one byte. From a load to its last iteration the same must be lent, and nobody else may write it, for
    /// the iterations to be those of one decoding. "A write outside bytes 0 and 4 is ignored"; of the commands, "other values, and 2 with
    /// byte 3 at 255, do nothing".
    pub fn write(&mut self, address: u8, value: u8, lent: Lent) {
        self.0 = library::window_write(self.0, address, value, lent);
    }

    /// Loads the lent code and frame and makes the first test. Refusals, in order: 5 to 11, 12, 13, 2, 3, 4, 19.
    pub fn load(&mut self, lent: Lent) {
        self.write(COMMAND, LOAD, lent);
    }

    /// Makes one iteration if the state is running. Refusals, in order: those of a load, 13 for a cost above 510
    /// or a column without a 0 in the cost buffer, and 16 for a stored record unless no iteration was made yet.
    pub fn iterate(&mut self, lent: Lent) {
        self.write(COMMAND, ITERATE, lent);
    }

    /// Clears what is pending.
    pub fn clear_pending(&mut self) {
        self.write(COMMAND, CLEAR, Lent::default());
    }

    /// Sets the interrupt mask.
    pub fn set_mask(&mut self, mask: u8) {
        self.write(MASK, mask, Lent::default());
    }

    /// Reads one byte: "byte 0 always reads 0", "a read past byte 5 gives 0".
    pub fn read(self, address: u8) -> u8 {
        library::window_read(self.0, address)
    }

    /// "The interrupt is raised when mask and pending share a bit."
    pub fn interrupt(self) -> bool {
        library::window_interrupt(self.0) != 0
    }

    /// The state, a refusal with its number.
    pub fn state(self) -> State {
        match self.read(STATE) {
            0 => State::Idle,
            1 => State::Running,
            2 => State::Found,
            3 => State::NotFound,
            4 => State::Refused(Refusal::from(u16::from(self.read(REFUSAL)))),
            byte => State::Unlisted(byte),
        }
    }

    /// t, the iterations done.
    pub fn iterations(self) -> u8 {
        self.read(ITERATIONS)
    }

    /// The interrupt mask.
    pub fn mask(self) -> u8 {
        self.read(MASK)
    }

    /// What is pending.
    pub fn pending(self) -> u8 {
        self.read(PENDING)
    }
}
