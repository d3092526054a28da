//! Of document 01's "Readings that go wrong" those about a check, with k = 2 and k = 3.

use reference_decoder::check::Messages;
use reference_decoder::sample::bytes;
use reference_decoder::Rule;

/// The messages of a check with weights 1.
fn messages(first: u8, degree: usize, costs: &str) -> Messages {
    let rule = Rule::new(first).expect("an accepted first byte");
    Messages::new(rule, &vec![1; degree], &bytes(costs))
}

#[test]
fn a_cost_sent_to_a_column_of_the_cheapest_choice_may_be_a_pairs() {
    // At a = 3 column 1 alone costs 3 and is the least; the single symbols of the other columns
    // cost 9 and 10, but symbol 1 of column 0 and symbol 2 of column 2 together cost 7.
    for first in [0x02, 0x22] {
        let messages = messages(first, 3, "00050709 00040803 0006020A");
        assert_eq!(messages.extra[3], 3);
        assert_eq!(messages.sent_at_sum[1][3], 7);
    }
}

#[test]
fn a_column_deviates_only_once() {
    // Symbols 1 and 2 of column 0 cost 1 each and add up to 3, but a choice has one symbol a
    // column.
    for first in [0x02, 0x22] {
        let messages = messages(first, 3, "00010109 00090909 00090909");
        assert_eq!(messages.extra[3], 9);
    }
    // Symbols 1, 2 and 4 cost 1 each in columns 0 and 1. They add up to 7, but in two columns there
    // are only two of them, as for 3.
    let (cheap, dear) = ("0001010901090909", "0009090909090909");
    let costs = [cheap, cheap, dear, dear].join(" ");
    for first in [0x03, 0x23] {
        let messages = messages(first, 4, &costs);
        assert_eq!((messages.extra[3], messages.extra[7]), (2, 9));
    }
}

#[test]
fn the_extra_column_less_a_columns_part_is_not_the_sent_cost() {
    // E(3) is 6, by symbol 1 of column 0 for 1 and symbol 2 of column 1 for 5. Column 0 is not sent
    // 6 - 1 at a = 2: symbol 4 of column 1 and symbol 6 of column 2 together cost 4.
    let costs = "0001202020202020 0020052002202020 0020202020200220";
    for first in [0x03, 0x23] {
        let messages = messages(first, 3, costs);
        assert_eq!(messages.extra[3], 6);
        assert_eq!(messages.sent_at_sum[0][2], 4);
    }
}

#[test]
fn the_smallest_tied_symbol_is_the_hard_decision() {
    for first in [0x02, 0x22] {
        let messages = messages(first, 3, "05000500 00000000 01010100");
        let decided = messages.decisions.iter();
        let decided = decided.map(|decision| (decision.symbol, decision.margin));
        assert!(decided.eq([(1, 0), (0, 0), (3, 1)]));
        assert_eq!(messages.shifts, [3, 2, 1]);
    }
}

#[test]
fn costs_are_not_added_in_a_byte() {
    // A sum of two costs passes a byte at every a but is never the least: one deviation is enough.
    for first in [0x02, 0x22] {
        let messages = messages(first, 3, "00FFFFFF 00FEFFFF 00FFFEFF");
        assert_eq!(messages.extra[1..], [0xFE, 0xFE, 0xFF]);
        assert_eq!(messages.sent_at_sum[1][1..], [0xFF, 0xFE, 0xFF]);
        assert_eq!(messages.sent_at_sum[2][1..], [0xFE, 0xFF, 0xFF]);
    }
    // Symbols 1, 2 and 4 of columns 0, 1 and 2 cost 86 each, together 258, which is 2 in a byte.
    let column = |symbol: usize| {
        let cost = |x: usize| match x {
            0 => "00",
            _ if x == symbol => "56",
            _ => "FF",
        };
        (0..8).map(cost).collect::<String>()
    };
    let costs = [1, 2, 4, 0].map(column).join(" ");
    assert_eq!(messages(0x23, 4, &costs).extra[7], 0xFF);
}
