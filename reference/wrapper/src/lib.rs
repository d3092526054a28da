//! Safe calls of the proved decoder for nonbinary LDPC frames, the static library `libpetsivola.a`.
//!
//! Every call lends slices and answers at once; nothing is allocated and nothing is kept between
//! calls. A call is refused for the numbered reasons of document 01 (`01-scope.md`) and document 02
//! (`02-change-requests.md`) alone, in their order, and a refused call changes no element: see
//! [`Refusal`]. Elements past those that a call
//! fills keep their old content. No call panics, whatever its arguments.
//!
//! The first byte of a code line, which `check`, `sweep`, `expand` and `display` take too, gives the field, the number of
//! deviations and the edition, sum or Min-Max: a [`Rule`] reads and composes it. [`lengths`] has the lengths
//! that follow from it, and a [`CodeLine`] those for a whole code line. `product` takes p alone.
//!
//! | call | fills | refusals, in order |
//! |---|---|---|
//! | [`product`] | nothing | 6, 11 |
//! | [`check`] | the record of one check | 6, 9, 11, 12, 13, 4 |
//! | [`sweep`] | the same record, by an engine that can be followed on paper | 6, 9, 11, 12, 13, 4 |
//! | [`expand`] | the sent costs that a record stands for | 6, 9, 11, 16, 2 |
//! | [`display`] | the symbols that a record urges its columns towards | 6, 9, 11, 16, 2 |
//! | [`line`](line()) | the bytes of a line of hexadecimal digits | 15, 14, 2 |
//! | [`code_line`](code_line()) | nothing; it answers a [`CodeLine`] | 5 to 11 |
//! | [`decode`] | symbols, costs, records and margins of one frame | 5 to 11, 12, 13, 2, 3, 4, 19 |
//! | [`decode_early`] | the same, stopped as soon as the symbols satisfy every check | 5 to 11, 12, 13, 2, 3, 4, 19 |
//! | [`encode`] | the symbols of one message | 5 to 11, 17, 18, 2 |
//! | [`combine`] | the frame of two blows | 5 to 11, 12, 13, 23, 2 |
//! | [`channels`](channels()) | what `decode` fills, of up to eight frames | 21, 22, 5 to 11, 12, 2, 3, 4, 19 |
//!
//! A [`Window`] does a decoding step by step, through the registers of document 02, §8.
//!
//! Document 01's example, a code of three columns and one check over the field of four elements:
//!
//! ```
//! use petsivola::{decode, lengths, Outcome};
//!
//! let code = [2, 0, 3, 1, 16, 1, 3, 0, 0, 1, 0, 1, 1, 0, 2, 1];
//! let frame = [5, 0, 9, 7, 0, 4, 8, 3, 0, 6, 2, 10];
//! let mut symbols = [0; 3];
//! let mut costs = [0; 12];
//! let mut store = [0; lengths::MOST_STORE];
//! let mut margins = [0; 3];
//! let outcome = decode(&code, &frame, &mut symbols, &mut costs, &mut store, &mut margins);
//! assert_eq!(outcome, Ok(Outcome::Found(1)));
//! assert_eq!(symbols, [1, 1, 0]);
//! assert_eq!(margins, [1, 1, 1]);
//! ```

#![no_std]
#![deny(unsafe_code)]
#![deny(missing_docs)]

mod answer;
pub mod channels;
pub mod code_line;
pub mod lengths;
mod lent;
mod library;
mod refusal;
mod rule;
pub mod window;

pub use answer::{Outcome, Stopped};
pub use channels::{channels, Channel, Served};
pub use code_line::{code_line, CodeLine};
pub use lent::Lent;
pub use refusal::Refusal;
pub use rule::{Edition, Rule};
pub use window::{State, Window};

/// The greatest margin of a decision; a cost of the cost buffer is no greater either.
pub const MOST_MARGIN: u16 = 510;

/// The product of two elements of the field with 2^p elements. Order: "Product: 6, 11."
pub fn product(p: u8, a: u8, b: u8) -> Result<u8, Refusal> {
    answer::element(library::product(p, a, b))
}

/// Works out one check's messages and writes their record; answers how many bytes it wrote,
/// [`lengths::record`]. The degree is the number of weights, and the costs stand column by column,
/// q each; `first` is as a code line's first byte. Order: "Check: 6, 9, 11, 12, 13, 4."
pub fn check(first: u8, weights: &[u8], costs: &[u8], record: &mut [u8]) -> Result<usize, Refusal> {
    answer::written(library::check(first, weights, costs, record))
}

/// Answers and writes what [`check`] does, for every input, by an engine that can be followed on paper and
/// is many times slower. Document 02, §7: it "keeps, for each partial sum and each count of deviations up to
/// k, the least cost over the columns before n, and the same over the columns after n, and joins the two
/// sweeps for column n". Order: 6, 9, 11, 12, 13, 4.
pub fn sweep(first: u8, weights: &[u8], costs: &[u8], record: &mut [u8]) -> Result<usize, Refusal> {
    answer::written(library::sweep(first, weights, costs, record))
}

/// Writes the unscaled sent costs that a record stands for, column by column, q each; answers how
/// many bytes it wrote, [`lengths::expansion`]. `first` is as a code line's first byte. Order: "Expand:
/// 6, 9, 11, 16, 2."
pub fn expand(first: u8, weights: &[u8], record: &[u8], out: &mut [u8]) -> Result<usize, Refusal> {
    answer::written(library::expand(first, weights, record, out))
}

/// Writes which symbol each column of a record was urged towards, its shift divided by its weight, and nothing else of
/// the record; answers how many bytes it wrote, d. Order, as for [`expand`], which reads all of it: 6, 9, 11, 16, 2.
///
/// "For two accepted records of one field, weights and degree, the display bytes are equal exactly when the shifts are,
/// however their costs and pairs differ".
///
/// ```
/// use petsivola::display;
///
/// let record = [1, 2, 3, 4, 1, 5, 255, 0, 2, 2, 7, 255, 0, 3, 1, 7, 255, 0];
/// let mut symbols = [0; 3];
/// assert_eq!(display(2, &[1, 2, 1], &record, &mut symbols), Ok(3));
/// assert_eq!(symbols, [1, 1, 3]);
/// ```
pub fn display(first: u8, weights: &[u8], record: &[u8], out: &mut [u8]) -> Result<usize, Refusal> {
    answer::written(library::display(first, weights, record, out))
}

/// Reads the text of one line, without its 0A, into bytes, two digits a byte; answers how many
/// bytes it wrote. Order: "Line: 15, 14, 2."
pub fn line(text: &[u8], out: &mut [u8]) -> Result<usize, Refusal> {
    answer::written(library::line(text, out))
}

/// Decodes one frame under a code line. Order: "Decode: code, 12, 13, 2, 3, 4.", then 19.
///
/// "The symbol buffer then holds the N decisions, the cost buffer (16-bit numbers) holds P, N times
/// q of them, and the record store holds the records end to end in code order. With t = 0 the store
/// is untouched." The margin buffer holds for each decision "the least cost among the other symbols less
/// the least cost of all": how sure it is, 0 for a tie and at most [`MOST_MARGIN`]. The buffers' lengths
/// are N, [`lengths::frame`], [`lengths::store`] and N, or more.
pub fn decode(
    code: &[u8],
    frame: &[u8],
    symbols: &mut [u8],
    costs: &mut [u16],
    store: &mut [u8],
    margins: &mut [u16],
) -> Result<Outcome, Refusal> {
    answer::outcome(library::decode(code, frame, symbols, costs, store, margins))
}

/// Decodes one frame and stops "as soon as the decisions satisfy all checks, tested at the start and after each check
/// update" (document 02, §13), which may be inside an iteration. It makes no more updates than [`decode`] does, M in each
/// iteration. Order, as there: the code line's refusals, 12, 13, 2, 3, 4, 19.
///
/// "Symbols, margins, costs and updated records are those of that moment. Checks not yet updated keep the old bytes of
/// their place in the store": with fewer than M updates only the first records are of this frame, as many as there were
/// updates. The buffers' lengths are those of [`decode`], wherever it stops.
///
/// A frame that [`decode`] finds is found, now and then as another word, and one that it does not find may be, as here:
///
/// ```
/// use petsivola::{decode_early, Stopped};
///
/// let code = [2, 0, 2, 2, 8, 3, 2, 0, 0, 1, 0, 1, 1, 2, 0, 0, 1, 0, 1, 2];
/// let frame = [0, 1, 0, 2, 2, 2, 1, 0];
/// let (mut symbols, mut costs) = ([9; 2], [0; 8]);
/// let (mut store, mut margins) = ([0; 34], [0; 2]);
/// let stopped = decode_early(&code, &frame, &mut symbols, &mut costs, &mut store, &mut margins);
/// assert_eq!(stopped, Ok(Stopped::Found(3)));
/// assert_eq!(symbols, [0, 0]);
/// ```
pub fn decode_early(
    code: &[u8],
    frame: &[u8],
    symbols: &mut [u8],
    costs: &mut [u16],
    store: &mut [u8],
    margins: &mut [u16],
) -> Result<Stopped, Refusal> {
    let result = library::decode_early(code, frame, symbols, costs, store, margins);
    answer::stopped(result)
}

/// Writes the N symbols of a message of N - M symbols under a code line "where N exceeds M and check
/// m, counted from 0, contains column N - M + m and no higher one"; answers how many it wrote, N.
/// Order: the code line's refusals, 17, 18, 2.
///
/// "The first N - M symbols are the message, each check is satisfied, and no other word with that
/// message satisfies them all." The message's length is [`lengths::message`], that of the symbol
/// buffer N or more.
pub fn encode(code: &[u8], message: &[u8], symbols: &mut [u8]) -> Result<usize, Refusal> {
    answer::written(library::encode(code, message, symbols))
}

/// Combines two frames of one word into one, which is to be decoded in their place; answers how many costs it wrote,
/// N q, [`lengths::frame`]. Order: the code line's refusals, 12 and 13 for the first frame, 23 for the second, 2.
///
/// "at each column and symbol add the two costs, subtract the column's least, cap at 255. The result is itself an
/// accepted frame, the same in either order of the two."
///
/// ```
/// use petsivola::combine;
///
/// let code = [2, 0, 3, 1, 16, 1, 3, 0, 0, 1, 0, 1, 1, 0, 2, 1];
/// let first = [5, 0, 9, 7, 0, 4, 8, 3, 0, 6, 2, 10];
/// let second = [0, 9, 2, 0, 7, 3, 255, 0, 10, 6, 0, 4];
/// let mut out = [0; 12];
/// assert_eq!(combine(&code, &first, &second, &mut out), Ok(12));
/// assert_eq!(out, [0, 4, 6, 2, 4, 4, 255, 0, 8, 10, 0, 12]);
/// ```
pub fn combine(code: &[u8], first: &[u8], second: &[u8], out: &mut [u8]) -> Result<usize, Refusal> {
    answer::written(library::combine(code, first, second, out))
}
