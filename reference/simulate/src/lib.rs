//! The simulation: frame error rates over BPSK and white noise, with the decoder called through the static
//! library, with k = 2 in both editions beside the Trellis Min-Max rule of source document 003, and with
//! k = 3 beside k = 2 under codes with long checks; how often a decided symbol is wrong, by its margin; what
//! eight channels gain by one allowance of iterations; what two blows for one word gain; and what a decoding saves that
//! stops inside an iteration.

#![forbid(unsafe_code)]
#![deny(missing_docs)]

pub mod array;
pub mod blows;
pub mod channel;
pub mod chart;
pub mod code;
pub mod cyclic;
pub mod decoder;
pub mod early;
pub mod encoder;
pub mod field;
pub mod layered;
pub mod library;
pub mod long_checks;
pub mod margins;
pub mod min_max;
pub mod plan;
pub mod plane;
pub mod progress;
pub mod quantiser;
pub mod report;
pub mod share;
pub mod sharing;
pub mod sweep;
pub mod tally;
pub mod trial;
pub mod weights;
