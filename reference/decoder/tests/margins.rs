//! Document 02, §6: "Choosing a hard decision must now yield the symbol and its margin, the least cost among
//! the other symbols less the least cost of all; a tie has margin 0." "Decoding fills a second lent buffer
//! with N margins, 16 bits each, from the final P."

use reference_decoder::decision::MOST_MARGIN;
use reference_decoder::sample::{self, bytes, Buffers, Generator, Size, Style};
use reference_decoder::{code_line, Decision, Outcome};

/// One check on three columns, weights 1, scale 16, one iteration.
const ONE_CHECK: &str = "020003011001 03 000001 000101 000201";

/// A decoding in buffers of the used length.
fn decoded(code: &[u8], frame: &[u8]) -> (Outcome, Buffers) {
    let lengths = code_line(code).expect("an accepted code line").lengths();
    let mut buffers = Buffers::zeroed(lengths);
    let outcome = buffers.decode(code, frame).expect("an accepted frame");
    (outcome, buffers)
}

fn decision(symbol: u8, margin: u16) -> Decision {
    Decision { symbol, margin }
}

#[test]
fn decisions_by_hand() {
    for (costs, expected) in [
        ([1, 0, 7, 6], decision(1, 1)),
        ([1, 0, 11, 1], decision(1, 1)),
        ([0, 2, 1, 13], decision(0, 1)),
        ([9, 8, 7, 0], decision(3, 7)),
        ([0, 255, 255, 254], decision(0, 254)),
    ] {
        assert_eq!(Decision::of::<u8>(&costs), expected);
        assert_eq!(Decision::of(&costs.map(u16::from)), expected);
        assert_eq!(Decision::of(&costs.map(i32::from)), expected);
    }
    let most = i32::from(MOST_MARGIN);
    let expected = decision(2, MOST_MARGIN);
    assert_eq!(Decision::of(&[most, most, 0, most]), expected);
}

/// "a tie has margin 0": between two symbols and between all of them, wherever they stand.
#[test]
fn a_tie_has_margin_0() {
    for (costs, symbol) in [
        ([0, 0, 9, 7], 0),
        ([5, 0, 0, 7], 1),
        ([5, 3, 0, 0], 2),
        ([0, 3, 9, 0], 0),
        ([0, 0, 0, 0], 0),
    ] {
        assert_eq!(Decision::of::<u8>(&costs), decision(symbol, 0));
        assert_eq!(Decision::of::<i32>(&costs.map(i32::from)).margin, 0);
    }
}

#[test]
fn the_margins_of_the_example() {
    let (outcome, buffers) = decoded(&bytes(ONE_CHECK), &bytes("05000907 00040803 0006020A"));
    assert_eq!(outcome, Outcome::Found(1));
    assert_eq!(buffers.costs, [1, 0, 7, 6, 1, 0, 11, 1, 0, 2, 1, 13]);
    assert_eq!(buffers.margins, [1, 1, 1]);
}

/// "from the final P": of a frame found at once these are the frame's margins, and not those of a frame that
/// takes an iteration.
#[test]
fn margins_are_of_the_final_costs() {
    let (outcome, buffers) = decoded(&bytes(ONE_CHECK), &bytes("00050907 00040803 0006020A"));
    assert_eq!(outcome, Outcome::Found(0));
    assert_eq!(buffers.margins, [5, 3, 2]);
    // Column 1 has a second cost of 0 and is sent 5 0 7 2: the sums 5 0 15 5 have margin 5.
    let (outcome, buffers) = decoded(&bytes(ONE_CHECK), &bytes("05000907 00000803 0006020A"));
    assert_eq!(outcome, Outcome::Found(1));
    assert_eq!(buffers.costs[4..8], [5, 0, 15, 5]);
    assert_eq!(buffers.margins[1], 5);
}

/// All costs but those of the decisions are 255 in columns 2 and 3, whose check is satisfied, so that they
/// are sent 255 too. The check on columns 0 and 1 is not: both of its sums tie.
#[test]
fn the_greatest_margin_and_a_tie() {
    let code = bytes("020004021001 02 000001 000101 02 000201 000301");
    let (outcome, buffers) = decoded(&code, &bytes("00FFFFFF FF00FFFF FFFF00FF FFFF00FF"));
    assert_eq!(outcome, Outcome::Found(1));
    assert_eq!(buffers.symbols, [0, 0, 2, 2]);
    assert_eq!(buffers.margins, [0, 0, MOST_MARGIN, MOST_MARGIN]);
}

#[test]
fn margins_past_n_stay() {
    let (code, frame) = (bytes(ONE_CHECK), bytes("05000907 00040803 0006020A"));
    let mut buffers = Buffers::zeroed([3, 12, 18, 6]);
    buffers.margins.fill(0xA5A5);
    assert!(buffers.decode(&code, &frame).is_ok());
    assert_eq!(buffers.margins, [1, 1, 1, 0xA5A5, 0xA5A5, 0xA5A5]);
}

/// Whether the margin is the second of the costs in rising order less the first, and the symbol the first
/// place of the least.
fn agrees(costs: &[u16], symbol: u8, margin: u16) -> bool {
    let mut rising: Vec<(u16, usize)> = costs.iter().copied().zip(0..).collect();
    rising.sort_unstable();
    rising[0].1 == usize::from(symbol) && rising[1].0 - rising[0].0 == margin
}

#[test]
fn margins_of_random_decodings() {
    let mut generator = Generator::new(45);
    let (mut ties, mut past_a_byte, mut not_found) = (0, 0, 0);
    for count in 0..600 {
        let size = [Size::SMALL, Size::MEDIUM][usize::from(count % 10 == 0)].clone();
        let sample = sample::code(&mut generator, &size);
        let code = code_line(&sample.line).unwrap();
        let style = generator.one_of(&Style::ALL);
        let wrong = generator.between(0..=code.n);
        let frame = sample::noisy_frame(&mut generator, &code, &sample.word, wrong, style);
        let (outcome, buffers) = decoded(&sample.line, &frame);
        let columns = buffers.costs.chunks(code.field().size());
        let decided = buffers.symbols.iter().zip(&buffers.margins);
        for (costs, (&symbol, &margin)) in columns.zip(decided) {
            assert!(agrees(costs, symbol, margin), "{costs:?} {symbol} {margin}");
            let zeros = costs.iter().filter(|&&cost| cost == 0).count();
            assert_eq!(margin == 0, zeros > 1);
            ties += usize::from(margin == 0);
            past_a_byte += usize::from(margin > 255);
        }
        not_found += usize::from(outcome.status() == 1);
    }
    assert!(ties > 100 && past_a_byte > 100 && not_found > 100);
}
