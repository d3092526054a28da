//! The refusals. Document 01, "Who causes which refusal": "A refusal returns its number with t = 0;
//! no lent buffer changes."
//!
//! A refusal is the error case of an entry point's answer. It carries no number of iterations: t is
//! 0.

use std::error::Error;
use std::fmt;

/// Why an entry point refused its input; the discriminant is document 01's number. Document 02: "New
/// numbers, here and below, join document 01's list"; 20 is none, it is a channel's status "which is no
/// refusal".
#[derive(Clone, Copy, Debug, PartialEq, Eq, PartialOrd, Ord, Hash)]
#[repr(u8)]
pub enum Refusal {
    /// "2, symbol or expansion buffer, or the buffer for a line's bytes, too short"
    ShortBuffer = 2,
    /// "3, cost buffer shorter than N times q"
    ShortCosts = 3,
    /// "4, record buffer or store too short"; document 02, §3: "4 and 16 use the new length"
    ShortStore = 4,
    /// "5, bytes missing or left over"
    CodeBytes = 5,
    /// "6, p"; document 02, §5: "Refusal 6 now means: high digit above 3, or low digit outside 2 to 6."
    FieldSize = 6,
    /// "7, N or M out of range"
    ColumnsOrChecks = 7,
    /// "8, g or I out of range"
    ScaleOrLimit = 8,
    /// "9, degree out of range, or the edge total passes 1,024"; document 02, §1: "Refusal 9 now
    /// starts below 2"
    Degree = 9,
    /// "10, column not below N or not rising"
    Column = 10,
    /// "11, weight 0, or a weight or element not below q (0 is allowed in the product)"
    Weight = 11,
    /// "12, cost count wrong"
    CostCount = 12,
    /// "13, a column without a cost of 0"
    NoZeroCost = 13,
    /// "14, odd digit count or another byte"
    Digits = 14,
    /// "15, more than 32,768 bytes before the 0A or the end of input"
    LongLine = 15,
    /// "16, length wrong, shift not below q, an unused pair that is not FF 00 or stands before a
    /// used one, columns not rising or not below d, or S not above E"
    Record = 16,
    /// Document 02, §2: "17, the code line lacks this form"
    NoForm = 17,
    /// Document 02, §2: "18, message length is not N - M or a symbol is not below q"
    Message = 18,
    /// Document 02, §6: "19, margin buffer shorter than N"
    ShortMargins = 19,
    /// Document 02, §9: "21, channel count not 1 to 8"
    ChannelCount = 21,
    /// Document 02, §9: "22, A is 0"
    NoAllowance = 22,
    /// Document 02, §10: "23, second frame's length wrong or a column of it has no 0"
    SecondFrame = 23,
}

impl Refusal {
    /// Document 01's number.
    pub fn number(self) -> u8 {
        self as u8
    }
}

impl fmt::Display for Refusal {
    fn fmt(&self, formatter: &mut fmt::Formatter<'_>) -> fmt::Result {
        write!(formatter, "refused by {}", self.number())
    }
}

impl Error for Refusal {}
