//! An input of the program in which no two frames give the same line, so that a line that is lost or
//! out of place shows.

use std::io::Write;
use std::ops::Range;

/// Document 01's example with eight columns more, which are in no check.
const CODE: &str = "02000B01100103000001000101000201";
/// The costs of the columns that are in the check.
const CHECKED: &str = "05000907000408030006020A";
/// The costs of one of the others, by the symbol that has none.
const OTHERS: [&str; 4] = ["00090909", "09000909", "09090009", "09090900"];

/// The code line, and the frames with these numbers.
pub fn input(numbers: Range<u16>) -> Vec<u8> {
    let mut input = Vec::new();
    writeln!(input, "{CODE}").expect("a vector takes all text");
    for number in numbers {
        writeln!(input, "{}", frame(number)).expect("a vector takes all text");
    }
    input
}

/// The frame whose last eight symbols are the number, two bits each, highest first.
fn frame(number: u16) -> String {
    let digits = (0..8).rev().map(|place| number >> (2 * place) & 3);
    let columns: String = digits.map(|digit| OTHERS[usize::from(digit)]).collect();
    CHECKED.to_string() + &columns
}
