//! The refusals. Document 01, "Who causes which refusal": "A refusal returns its number with t = 0;
//! no lent buffer changes."

use core::error::Error;
use core::fmt;

/// Why a call refused its input; [`number`](Refusal::number) is document 01's number. Those from 17
/// on are document 02's (`02-change-requests.md`), which "join document 01's list"; 20 is none of them but a
/// [channel](crate::Channel)'s status, "which is no refusal".
#[derive(Clone, Copy, Debug, PartialEq, Eq, PartialOrd, Ord, Hash)]
#[non_exhaustive]
pub enum Refusal {
    /// "2, symbol or expansion buffer, or the buffer for a line's bytes, too short"
    ShortBuffer,
    /// "3, cost buffer shorter than N times q"
    ShortCosts,
    /// "4, record buffer or store too short"
    ShortStore,
    /// "5, bytes missing or left over"
    CodeBytes,
    /// "6, p"; document 02, §5: "Refusal 6 now means: high digit above 3, or low digit outside 2 to 6."
    FieldSize,
    /// "7, N or M out of range"
    ColumnsOrChecks,
    /// "8, g or I out of range"
    ScaleOrLimit,
    /// "9, degree out of range, or the edge total passes 1,024"; a degree is 2 to 32
    Degree,
    /// "10, column not below N or not rising"
    Column,
    /// "11, weight 0, or a weight or element not below q (0 is allowed in the product)"
    Weight,
    /// "12, cost count wrong"
    CostCount,
    /// "13, a column without a cost of 0"
    NoZeroCost,
    /// "14, odd digit count or another byte"
    Digits,
    /// "15, more than 32,768 bytes before the 0A or the end of input"
    LongLine,
    /// "16, length wrong, shift not below q, an unused pair that is not FF 00 or stands before a
    /// used one, columns not rising or not below d, or S not above E"
    Record,
    /// "17, the code line lacks this form"; document 02, §2
    NoForm,
    /// "18, message length is not N - M or a symbol is not below q"; document 02, §2
    Message,
    /// "19, margin buffer shorter than N"; document 02, §6
    ShortMargins,
    /// "21, channel count not 1 to 8"; document 02, §9
    ChannelCount,
    /// "22, A is 0"; document 02, §9
    NoAllowance,
    /// "23, second frame's length wrong or a column of it has no 0"; document 02, §10
    SecondFrame,
    /// A number that the documents do not have. The proved library never answers one; it would mean
    /// that the program was linked with another archive than the one this package was written for.
    Unlisted(u16),
}

impl Refusal {
    /// The documents' refusals, in the order of their numbers.
    pub const ALL: [Refusal; 21] = [
        Refusal::ShortBuffer,
        Refusal::ShortCosts,
        Refusal::ShortStore,
        Refusal::CodeBytes,
        Refusal::FieldSize,
        Refusal::ColumnsOrChecks,
        Refusal::ScaleOrLimit,
        Refusal::Degree,
        Refusal::Column,
        Refusal::Weight,
        Refusal::CostCount,
        Refusal::NoZeroCost,
        Refusal::Digits,
        Refusal::LongLine,
        Refusal::Record,
        Refusal::NoForm,
        Refusal::Message,
        Refusal::ShortMargins,
        Refusal::ChannelCount,
        Refusal::NoAllowance,
        Refusal::SecondFrame,
    ];

    /// Document 01's number.
    pub const fn number(self) -> u16 {
        match self {
            Refusal::ShortBuffer => 2,
            Refusal::ShortCosts => 3,
            Refusal::ShortStore => 4,
            Refusal::CodeBytes => 5,
            Refusal::FieldSize => 6,
            Refusal::ColumnsOrChecks => 7,
            Refusal::ScaleOrLimit => 8,
            Refusal::Degree => 9,
            Refusal::Column => 10,
            Refusal::Weight => 11,
            Refusal::CostCount => 12,
            Refusal::NoZeroCost => 13,
            Refusal::Digits => 14,
            Refusal::LongLine => 15,
            Refusal::Record => 16,
            Refusal::NoForm => 17,
            Refusal::Message => 18,
            Refusal::ShortMargins => 19,
            Refusal::ChannelCount => 21,
            Refusal::NoAllowance => 22,
            Refusal::SecondFrame => 23,
            Refusal::Unlisted(number) => number,
        }
    }

    /// What was refused, in words.
    const fn words(self) -> &'static str {
        match self {
            Refusal::ShortBuffer => "the buffer for symbols or bytes is too short",
            Refusal::ShortCosts => "the cost buffer is too short",
            Refusal::ShortStore => "the record buffer or store is too short",
            Refusal::CodeBytes => "bytes of the code line are missing or left over",
            Refusal::FieldSize => {
                "the high digit of the first byte is above 3, or p, its low digit, is not 2 to 6"
            }
            Refusal::ColumnsOrChecks => "N is not 1 to 256, or M is not 1 to 128",
            Refusal::ScaleOrLimit => "g is not 1 to 16, or I is 0",
            Refusal::Degree => "a degree is not 2 to 32, or there are more than 1,024 edges",
            Refusal::Column => "a column is not below N, or not greater than the one before",
            Refusal::Weight => "a weight is 0, or a weight or element is not below q",
            Refusal::CostCount => "the number of costs is wrong",
            Refusal::NoZeroCost => "a column has no cost of 0",
            Refusal::Digits => "the line has an odd number of digits, or another byte",
            Refusal::LongLine => "the line has more than 32,768 bytes",
            Refusal::Record => "the record's form is wrong",
            Refusal::NoForm => {
                "N is not above M, or a check m lacks column N - M + m or has a higher one"
            }
            Refusal::Message => "the message's length is not N - M, or a symbol is not below q",
            Refusal::ShortMargins => "the margin buffer is shorter than N",
            Refusal::ChannelCount => "the channel count is not 1 to 8",
            Refusal::NoAllowance => "the allowance of iterations is 0",
            Refusal::SecondFrame => {
                "the second frame's number of costs is wrong, or a column of it has no cost of 0"
            }
            Refusal::Unlisted(_) => "the documents do not have this number",
        }
    }
}

impl From<u16> for Refusal {
    /// The refusal with this number.
    fn from(number: u16) -> Refusal {
        let listed = Refusal::ALL.into_iter();
        let mut with_number = listed.filter(|refusal| refusal.number() == number);
        with_number.next().unwrap_or(Refusal::Unlisted(number))
    }
}

impl From<Refusal> for u16 {
    fn from(refusal: Refusal) -> u16 {
        refusal.number()
    }
}

impl fmt::Display for Refusal {
    fn fmt(&self, formatter: &mut fmt::Formatter<'_>) -> fmt::Result {
        write!(formatter, "refused by {}: {}", self.number(), self.words())
    }
}

impl Error for Refusal {}

#[cfg(test)]
mod tests {
    extern crate std;

    use std::string::ToString;

    use super::*;

    #[test]
    fn the_numbers_are_2_to_23_without_20() {
        let numbers = (2..=23).filter(|&number| number != 20);
        assert!(Refusal::ALL.into_iter().map(u16::from).eq(numbers));
    }

    #[test]
    fn every_number_has_one_refusal() {
        for number in 0..=u16::MAX {
            let refusal = Refusal::from(number);
            assert_eq!(refusal.number(), number);
            let listed = Refusal::ALL.contains(&refusal);
            assert_eq!(listed, (2..=23).contains(&number) && number != 20);
        }
    }

    #[test]
    fn the_text_has_the_number_and_the_cause() {
        assert_eq!(
            Refusal::FieldSize.to_string(),
            "refused by 6: the high digit of the first byte is above 3, or p, its low digit, is not 2 to 6"
        );
        assert_eq!(
            Refusal::Degree.to_string(),
            "refused by 9: a degree is not 2 to 32, or there are more than 1,024 edges"
        );
        assert_eq!(
            Refusal::Message.to_string(),
            "refused by 18: the message's length is not N - M, or a symbol is not below q"
        );
        assert_eq!(
            Refusal::ShortMargins.to_string(),
            "refused by 19: the margin buffer is shorter than N"
        );
    }
}
