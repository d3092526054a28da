//! The benchmark: "time per check by (p, d) and per iteration and coded bits per second by
//! code, beside (a) the same algorithm in Rust built with -O, (b) the textbook forward and backward
//! sweeps in Rust, (c) expansion and record sizes against the d·q bytes of plain messages. All in one
//! run, as ratios". Beside these, for the check: k = 3 beside k = 2, the Min-Max edition beside the sum, the
//! proved library's own sweep beside its check, a search over kept entries in Rust, and the same algorithm by hand
//! in C with SSE2 and AVX2; symbols per second of encoding; the time of combining two frames; and a check update of
//! a decoding that stops inside an iteration beside one of `decode`.

#![deny(unsafe_code)]
#![deny(missing_docs)]

pub mod accepted;
pub mod channels;
pub mod charts;
pub mod checks;
pub mod combining;
pub mod decision;
pub mod decoding;
pub mod early;
pub mod encoding;
pub mod engines;
pub mod foreign;
pub mod inputs;
pub mod report;
pub mod same;
pub mod search_engine;
pub mod sweeps;
pub mod targets;
pub mod timing;
