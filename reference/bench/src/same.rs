//! The proved library's algorithm written once more in Rust, for the ratio between the two: the same
//! steps over the same tables, with slices and without unsafe code, refusals included.
//!
//! A table holds, for each row a, the best choice of some columns with at most j deviations whose weighted
//! difference is a. It holds rests: what is left of 255 after a choice's cost. A cost is taken off by a
//! difference that stops at 0, so two costs are never added in a byte, and the best choice has the
//! greatest rest.

#![forbid(unsafe_code)]

mod code;
mod decode;
mod early;
mod encode;
mod expansion;
mod groups;
mod joins;
mod lanes;
mod lines;
mod lists;
mod products;
mod record;
mod rule;
mod symbols;
mod tables;

pub use decode::decode;
pub use early::decode_early;
pub use encode::encode;
pub use expansion::{expand, expand_by};
pub use record::{check, messages};
pub use rule::Rule;
