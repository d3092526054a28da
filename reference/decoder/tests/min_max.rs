//! Document 02, §5: "Min-Max edition." "where a choice costs the greatest of its columns' costs and not
//! their sum".

use std::ops::RangeInclusive;

use reference_decoder::check::Messages;
use reference_decoder::sample::{self, bytes, Buffers, Generator, Style};
use reference_decoder::{check, code_line, expand, record, Join, Outcome, Rule};

fn rule(first: u8) -> Rule {
    Rule::new(first).expect("an accepted first byte")
}

/// The record of a check, in a buffer of its length.
fn record_of(first: u8, weights: &[u8], costs: &[u8]) -> Vec<u8> {
    let mut record = vec![0xA5; record::length(rule(first), weights.len())];
    let written = check(first, weights, costs, &mut record);
    assert_eq!(written, Ok(record.len()));
    record
}

/// By hand. Rows: 1 has 5 4 6, 2 has 7 8 2, 3 has 9 3 10. At 1 symbols 3 of column 1 and 2 of column 2
/// cost 3 together; column 1 is sent the 5 of column 0, column 2 the 4 of column 1. At 2 column 2 alone
/// costs 2, and is sent 5 by symbols 1 and 3 of the others; at 3 column 1 alone costs 3, and is sent 5 by
/// symbols 1 and 2.
#[test]
fn a_record_by_hand() {
    let costs = bytes("00050709 00040803 0006020A");
    let expected = bytes("000000 0301050204 020205FF00 030105FF00");
    assert_eq!(record_of(0x12, &[1; 3], &costs), expected);
    let mut sent = [0xA5; 13];
    assert_eq!(expand(0x12, &[1; 3], &expected, &mut sent), Ok(12));
    assert_eq!(sent[..], bytes("00030203 00050205 00040503 A5"));
    // No third column deviates beside two others.
    let expected = bytes("000000 0301050204FF00 020205FF00FF00 030105FF00FF00");
    assert_eq!(record_of(0x32, &[1; 3], &costs), expected);
}

/// By hand: symbol 1 of column 0, 2 of column 1 and 4 of column 2 cost 1, all else but the decisions 9. One
/// of them, two or three make each a for 1, and a column of the cheapest choice is sent 9.
#[test]
fn a_record_with_three_pairs() {
    let costs = bytes("0001090909090909 0009010909090909 0009090901090909 0009090909090909");
    let expected = bytes(
        "00000000 010009FF00FF00 010109FF00FF00 0100090109FF00 010209FF00FF00 0100090209FF00 \
         0101090209FF00 01000901090209",
    );
    assert_eq!(record_of(0x33, &[1; 4], &costs), expected);
    // With k = 2 nothing makes 7 for less than 9.
    let expected = bytes(
        "00000000 010009FF00 010109FF00 0100090109 010209FF00 0100090209 0101090209 09FF00FF00",
    );
    assert_eq!(record_of(0x13, &[1; 4], &costs), expected);
}

/// Two columns of cost 200 make a choice of cost 200.
#[test]
fn large_costs_do_not_add_up() {
    let costs = bytes("00C8FFFF 00FFC8FF 00FFFFFF");
    let expected = bytes("000000 C800FFFF00 C801FFFF00 C800FF01FF");
    assert_eq!(record_of(0x12, &[1; 3], &costs), expected);
}

/// The least cost that column n of three is sent at each symbol: both other columns take each of their
/// symbols.
fn by_all_choices(first: u8, weights: &[u8; 3], costs: &[u8], n: usize) -> Vec<u8> {
    let (field, q) = (rule(first).field(), rule(first).field().size());
    let [one, other] = [[1, 2], [0, 2], [0, 1]][n];
    let term = |n: usize, x: usize| field.product(weights[n], x as u8);
    let mut least = vec![u8::MAX; q];
    for (x, y, z) in (0..q * q * q).map(|i| (i / q / q, i / q % q, i % q)) {
        if term(n, x) == term(one, y) ^ term(other, z) {
            let cost = costs[one * q + y].max(costs[other * q + z]);
            least[x] = least[x].min(cost);
        }
    }
    least
}

#[test]
fn small_checks_agree_with_all_choices() {
    let mut generator = Generator::new(1);
    for style in Style::ALL.repeat(40) {
        for first in [0x12, 0x13, 0x14, 0x32, 0x33, 0x34] {
            let sample = sample::check(&mut generator, first, 3..=3, style);
            let weights = <[u8; 3]>::try_from(&sample.weights[..]).expect("degree 3");
            let messages = Messages::new(sample.rule(), &weights, &sample.costs);
            for (n, sent) in messages.sent.iter().enumerate() {
                let expected = by_all_choices(first, &weights, &sample.costs, n);
                assert_eq!(sent, &expected, "{sample:?}");
            }
        }
    }
}

const EDITION: RangeInclusive<Join> = Join::Greatest..=Join::Greatest;

/// A check of the Min-Max edition with 2 to 12 columns.
fn sample_of_edition(generator: &mut Generator, style: Style) -> sample::CheckSample {
    let first = sample::first_byte_with(generator, 2..=6, 2..=3, EDITION);
    sample::check(generator, first, 2..=12, style)
}

/// The greatest of some costs is at most their sum, and the same where only one is not 0. Of two columns
/// each is sent the other's costs in either edition.
#[test]
fn no_cost_is_above_that_of_the_sum() {
    let mut generator = Generator::new(2);
    let (mut compared, mut less) = (0, 0);
    for style in Style::ALL.repeat(100) {
        let sample = sample_of_edition(&mut generator, style);
        let [sum, greatest] = [sample.first - 0x10, sample.first]
            .map(|first| Messages::new(rule(first), &sample.weights, &sample.costs));
        assert_eq!(
            (&sum.decisions, &sum.shifts),
            (&greatest.decisions, &greatest.shifts)
        );
        if sample.degree() == 2 {
            assert_eq!(sum, greatest);
        }
        for (sum, greatest) in sum.sent.concat().into_iter().zip(greatest.sent.concat()) {
            assert!(greatest <= sum);
            less += usize::from(greatest < sum);
            compared += 1;
        }
    }
    assert!(less > compared / 10, "{less} of {compared}");
}

/// What is sent is a cost that another column brings.
#[test]
fn every_sent_cost_is_a_cost_of_another_column() {
    let mut generator = Generator::new(3);
    for style in Style::ALL.repeat(60) {
        let sample = sample_of_edition(&mut generator, style);
        let messages = Messages::new(sample.rule(), &sample.weights, &sample.costs);
        for (n, sent) in messages.sent.iter().enumerate() {
            let columns = sample.costs.chunks(sample.q()).enumerate();
            let others = columns.filter(|(other, _)| *other != n);
            let brought: Vec<u8> = others.flat_map(|(_, costs)| costs.to_vec()).collect();
            assert!(sent.iter().all(|cost| brought.contains(cost)));
        }
    }
}

/// Only the order of the costs counts: costs that are replaced by others in the same order, 0 by 0 alone,
/// are sent replaced.
#[test]
fn costs_in_the_same_order_are_sent_in_their_place() {
    let mut generator = Generator::new(4);
    for style in Style::ALL.repeat(60) {
        let sample = sample_of_edition(&mut generator, style);
        let mut replacement = generator.bytes(256);
        replacement
            .iter_mut()
            .for_each(|cost| *cost = (*cost).max(1));
        replacement[0] = 0;
        replacement.sort_unstable();
        let replaced = |costs: &[u8]| -> Vec<u8> {
            let costs = costs.iter();
            costs.map(|&cost| replacement[usize::from(cost)]).collect()
        };
        let [plain, after] = [sample.costs.clone(), replaced(&sample.costs)]
            .map(|costs| Messages::new(sample.rule(), &sample.weights, &costs));
        assert_eq!(after.sent.concat(), replaced(&plain.sent.concat()));
        assert_eq!(after.extra, replaced(&plain.extra));
    }
}

/// "Sending the row's second least to a column of the cheapest choice (document 003): the true cost may be
/// a pair's."
#[test]
fn a_cost_sent_to_a_column_of_the_cheapest_choice_may_be_a_pairs() {
    // At a = 3 column 1 alone costs 3, and the single symbols of the others 9 and 10; symbol 1 of column 0
    // and symbol 2 of column 2 cost 5 together.
    let costs = bytes("00050709 00040803 0006020A");
    for first in [0x12, 0x32] {
        let messages = Messages::new(rule(first), &[1; 3], &costs);
        assert_eq!(messages.extra[3], 3);
        assert_eq!(messages.sent_at_sum[1][3], 5);
    }
}

/// Costs P, N times q of them, and the store of a frame under the code of the test below.
struct Decoded {
    outcome: Outcome,
    costs: Vec<u16>,
    store: Vec<u8>,
}

/// Two checks of degree 4 over eight elements, g = 8, I = 3.
fn decoded(first: &str, frame: &str) -> Decoded {
    let rest = "0005 02 08 03 04 000002 000104 000307 000402 04 000005 000201 000305 000404";
    let line = bytes(&format!("{first} {rest}"));
    let lengths = code_line(&line).expect("an accepted code").lengths();
    let mut buffers = Buffers::zeroed(lengths);
    let outcome = buffers.decode(&line, &bytes(frame));
    Decoded {
        outcome: outcome.expect("an accepted frame"),
        costs: buffers.costs,
        store: buffers.store,
    }
}

/// One frame under one code, which the sum loses. The values come from a separate calculation that lists
/// all choices.
#[test]
fn a_frame_that_the_greatest_saves() {
    let frame =
        "0E635DB200544FA4 0059177016702D87 008338BB2AAD62E6 00062329575D7B81 1346003245783264";
    assert_eq!(decoded("03", frame).outcome, Outcome::NotFound(3));
    let of_two = decoded("13", frame);
    assert_eq!(of_two.outcome, Outcome::Found(2));
    let costs = [
        0, 92, 90, 186, 5, 93, 63, 152, 0, 87, 23, 108, 30, 120, 56, 143, 0, 125, 56, 186, 37, 191,
        97, 230, 0, 17, 36, 72, 94, 119, 120, 144, 0, 76, 3, 36, 64, 116, 37, 106,
    ];
    assert_eq!(of_two.costs, costs);
    let store = bytes(
        "04070703 160118021E 16011E032D 050010FF00 090310FF00 1600180118 160118FF00 0900100310 \
         03010102 0D002A032A 0A002AFF00 0D032AFF00 2A0130FF00 02023DFF00 0D022A032A 0A002A022A",
    );
    assert_eq!(of_two.store, store);
    let of_three = decoded("33", frame);
    assert_eq!(of_three.outcome, Outcome::Found(2));
    let store = bytes(
        "04070703 160118FF00FF00 160118FF00FF00 050010FF00FF00 090310FF00FF00 160118FF00FF00 \
         160118FF00FF00 0900100310FF00 03010102 0D002A032AFF00 0A002AFF00FF00 0D032AFF00FF00 \
         0D002A022A032A 02022AFF00FF00 0D022A032AFF00 0A002A022AFF00",
    );
    assert_eq!(of_three.store, store);
}
