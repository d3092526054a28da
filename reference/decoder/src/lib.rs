//! The reference decoder: document 01 (`01-scope.md`) with §1 to §3, §5 to §11 and §13 of document 02
//! (`02-change-requests.md`) written out once more, in Rust. The proved library is compared with it,
//! so it is written from the documents alone, without that library's code: the least costs of a check
//! come from listing the choices, as document 01 defines them, and once more from two sweeps over the
//! columns; a message is encoded by solving the checks as equations.
//!
//! The entry points are [`product`], [`check`](check()), [`sweep`](sweep()), [`expand`], [`display`](display()),
//! [`line`](line()), [`code_line`], [`decode`], [`decode_early`], [`encode`](encode()), [`combine`](combine()),
//! [`frame_line`] and [`program`](program()). Each answers a [`Refusal`] in the documents' order or fills the used part of
//! its lent buffers. [`channels`](channels()) decodes up to eight frames under one allowance of iterations. A
//! [`Window`] does a decoding step by step and shows a refusal in a register. The module [`sample`] makes inputs
//! for tests.

#![forbid(unsafe_code)]
#![deny(missing_docs)]

pub mod channels;
pub mod check;
pub mod code;
pub mod combine;
pub mod decision;
pub mod display;
pub mod early;
pub mod encode;
pub mod field;
pub mod lent;
pub mod line;
pub mod machine;
pub mod program;
pub mod record;
pub mod refusal;
pub mod rule;
pub mod sample;
pub mod sweep;
pub mod window;

pub use channels::{channels, Served};
pub use check::check;
pub use code::{code_line, CheckNode, Code};
pub use combine::combine;
pub use decision::Decision;
pub use display::display;
pub use early::{decode_early, Stopped};
pub use encode::encode;
pub use field::product;
pub use lent::Lent;
pub use line::line;
pub use machine::{decode, Outcome};
pub use program::{frame_line, program};
pub use record::expand;
pub use refusal::Refusal;
pub use rule::{Join, Rule};
pub use sweep::sweep;
pub use window::Window;
