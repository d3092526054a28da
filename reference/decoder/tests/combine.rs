//! Document 02, §10: "Two blows, one frame."

use reference_decoder::sample::{self, bytes, Buffers, Generator, Size, Style};
use reference_decoder::{code_line, combine, Code, Outcome};

/// p = 2, N = 3, M = 1, g = 16, I = 1: one check on all columns.
const CODE: &str = "020003011001 03 000001 000101 000201";
const FIRST: &str = "05000907 00040803 0006020A";
const SECOND: &str = "00090200 0703FF00 0A060004";

/// The frame that two of a code give, in a buffer of its length.
fn combined(code: &Code, first: &[u8], second: &[u8]) -> Vec<u8> {
    let mut out = vec![0xA5; code.frame_length()];
    let written = combine(&code.line(), first, second, &mut out);
    assert_eq!(written, Ok(out.len()));
    out
}

/// The column that two give, p = 2, beside one of zeros.
fn column(first: [u8; 4], second: [u8; 4]) -> [u8; 4] {
    let code = bytes("020002011001 02 000001 000101");
    let mut out = [0xA5; 8];
    let [first, second] = [first, second].map(|column| [column, [0; 4]].concat());
    assert_eq!(combine(&code, &first, &second, &mut out), Ok(8));
    assert_eq!(out[4..], [0; 4]);
    out[..4].try_into().expect("four costs")
}

/// The refusal of two frames with a buffer of this length and arbitrary content, which has not changed.
fn refused(code: &[u8], first: &[u8], second: &[u8], length: usize) -> u8 {
    let before = Generator::new(100).bytes(length);
    let mut out = before.clone();
    let answer = combine(code, first, second, &mut out);
    assert_eq!(out, before);
    answer.expect_err("a refusal").number()
}

/// A code of any size, and a word of it.
fn code(generator: &mut Generator) -> (Code, Vec<u8>) {
    let size = match generator.below(40) {
        0 => Size::FULL,
        1 => Size::MOST_CHECKS,
        2 => Size::MOST_DEGREE,
        3..20 => Size::MEDIUM,
        _ => Size::SMALL,
    };
    let sample = sample::code(generator, &size);
    let code = code_line(&sample.line).expect("an accepted code line");
    (code, sample.word)
}

/// A code of any size and two frames, each in a style of its own.
fn two_frames(generator: &mut Generator) -> (Code, [Vec<u8>; 2]) {
    let (code, _) = code(generator);
    let frames = [0, 1].map(|_| {
        let style = generator.one_of(&Style::ALL);
        sample::frame(generator, &code, style)
    });
    (code, frames)
}

/// By hand: 5 9 11 7 less 5; 7 7 263 3 less 3, and 260 is capped; 10 12 2 14 less 2.
#[test]
fn two_frames_by_hand() {
    let mut out = [0xA5; 14];
    let [code, first, second] = [CODE, FIRST, SECOND].map(bytes);
    assert_eq!(combine(&code, &first, &second, &mut out), Ok(12));
    assert_eq!(out[..12], bytes("00040602 0404FF00 080A000C"));
    assert_eq!(out[12..], [0xA5; 2]);
}

/// "add the two costs": in whole numbers, past a byte.
#[test]
fn sums_pass_a_byte_before_the_least_is_subtracted() {
    let sums = column([0, 200, 255, 100], [255, 100, 0, 156]);
    assert_eq!(sums, [0, 45, 0, 1]);
    let all_at_the_end = column([0, 255, 254, 255], [255, 0, 255, 255]);
    assert_eq!(all_at_the_end, [0, 0, 254, 255]);
}

/// "subtract the column's least, cap at 255": in this order.
#[test]
fn the_least_is_subtracted_before_the_cap() {
    // 300 - 40 is 260: 255. Capped first it would be 215.
    assert_eq!(column([0, 40, 200, 55], [60, 0, 100, 0]), [20, 0, 255, 15]);
    // 295 - 40 and 296 - 40 are 255 and 256.
    assert_eq!(
        column([0, 40, 195, 196], [60, 0, 100, 100]),
        [20, 0, 255, 255]
    );
    assert_eq!(
        column([0, 40, 194, 255], [60, 0, 100, 255]),
        [20, 0, 254, 255]
    );
}

/// The words of the request, cost by cost.
#[test]
fn each_cost_is_the_sum_less_the_columns_least_and_at_most_255() {
    let mut generator = Generator::new(101);
    for _ in 0..2_000 {
        let (code, [first, second]) = two_frames(&mut generator);
        let combined = combined(&code, &first, &second);
        let q = code.field().size();
        let sum = |place: usize| u16::from(first[place]) + u16::from(second[place]);
        for (place, &cost) in combined.iter().enumerate() {
            let start = place / q * q;
            let least = (start..start + q).map(sum).min().expect("a column");
            assert_eq!(u16::from(cost), (sum(place) - least).min(255));
        }
    }
}

/// "The result is itself an accepted frame": under the same code, and in a further call.
#[test]
fn the_result_is_an_accepted_frame() {
    let mut generator = Generator::new(102);
    for _ in 0..2_000 {
        let (code, [first, second]) = two_frames(&mut generator);
        let both = combined(&code, &first, &second);
        let mut columns = both.chunks_exact(code.field().size());
        assert!(columns.all(|column| column.contains(&0)));
        assert_eq!(both.len(), code.frame_length());
        combined(&code, &both, &first);
        combined(&code, &first, &both);
    }
    let (code, frame) = (bytes(CODE), bytes("00040602 0404FF00 080A000C"));
    let mut buffers = Buffers::zeroed([3, 12, 18, 3]);
    assert_eq!(buffers.decode(&code, &frame), Ok(Outcome::Found(1)));
}

/// "the same in either order of the two"
#[test]
fn the_order_of_the_two_does_not_matter() {
    let mut generator = Generator::new(103);
    for _ in 0..2_000 {
        let (code, [first, second]) = two_frames(&mut generator);
        let one = combined(&code, &first, &second);
        assert_eq!(one, combined(&code, &second, &first));
    }
}

#[test]
fn a_frame_of_zeros_gives_the_other_back() {
    let mut generator = Generator::new(104);
    for _ in 0..1_000 {
        let (code, [frame, _]) = two_frames(&mut generator);
        let zeros = vec![0; frame.len()];
        assert_eq!(combined(&code, &frame, &zeros), frame);
        assert_eq!(combined(&code, &zeros, &frame), frame);
    }
}

/// Where both frames cost 0 the least is 0: nothing is subtracted, and what costs 0 is what both decide.
#[test]
fn common_zeros_stay_and_nothing_is_subtracted_beside_them() {
    let mut generator = Generator::new(105);
    for _ in 0..1_000 {
        let (code, word) = code(&mut generator);
        let style = generator.one_of(&Style::ALL);
        let [first, second] =
            [0, 1].map(|_| sample::noisy_frame(&mut generator, &code, &word, 0, style));
        let costs = first.iter().zip(&second);
        let sums = costs.map(|(&first, &second)| first.saturating_add(second));
        assert!(sums.eq(combined(&code, &first, &second)));
    }
}

/// A frame with itself doubles every cost: no decision changes.
#[test]
fn a_frame_may_be_combined_with_itself() {
    let mut generator = Generator::new(106);
    for _ in 0..500 {
        let (code, [frame, _]) = two_frames(&mut generator);
        let doubled = frame.iter().map(|&cost| cost.saturating_mul(2));
        assert!(doubled.eq(combined(&code, &frame, &frame)));
    }
}

/// The code gives the length alone: k, the edition, g, I and the checks change nothing.
#[test]
fn only_p_and_n_of_the_code_matter() {
    let mut generator = Generator::new(107);
    for _ in 0..500 {
        let (code, [first, second]) = two_frames(&mut generator);
        let mut other = code.clone();
        (other.first, other.g, other.limit) = (code.first ^ 0x30, 17 - code.g, code.limit ^ 1 | 2);
        other.checks.truncate(1);
        other.m = 1;
        let one = combined(&code, &first, &second);
        assert_eq!(one, combined(&other, &first, &second));
    }
}

/// Each code refusal, where both frames and the buffer are wrong too.
#[test]
fn the_code_lines_refusals_come_first() {
    let with = |place: usize, byte: u8| {
        let mut line = bytes(CODE);
        line[place] = byte;
        refused(&line, &[], &[], 0)
    };
    assert_eq!(with(0, 0x07), 6);
    assert_eq!(with(0, 0x42), 6);
    assert_eq!(with(2, 0), 7);
    assert_eq!(with(4, 17), 8);
    assert_eq!(with(6, 1), 9);
    assert_eq!(with(11, 0), 10);
    assert_eq!(with(9, 4), 11);
    assert_eq!(refused(&bytes(CODE)[..15], &[], &[], 0), 5);
    assert_eq!(refused(&[bytes(CODE), vec![0]].concat(), &[], &[], 0), 5);
    assert_eq!(refused(&[], &[], &[], 0), 5);
}

/// Frames that are wrong: by a cost missing and one left over, and by a column without a 0, the first and the last.
fn wrong_frames() -> [Vec<Vec<u8>>; 2] {
    let lengths = [0, 4, 11, 13, 24].map(|length| vec![0; length]);
    let costs = ["05010907 00040803 0006020A", "05000907 00040803 0106020A"];
    [lengths.into(), costs.map(bytes).into()]
}

#[test]
fn the_first_frame_is_12_then_13_before_the_second() {
    let [code, first, second] = [CODE, FIRST, SECOND].map(bytes);
    let [lengths, costs] = wrong_frames();
    for (wrong, number) in [(&lengths, 12), (&costs, 13)] {
        for frame in wrong {
            assert_eq!(refused(&code, frame, &second, 12), number);
            assert_eq!(refused(&code, frame, &first[..3], 12), number);
            assert_eq!(refused(&code, frame, &[1; 12], 0), number);
        }
    }
    // A wrong length, and no 0 in what there is.
    assert_eq!(refused(&code, &[1; 11], &second, 12), 12);
}

#[test]
fn the_second_frame_is_23_before_2() {
    let [code, first] = [CODE, FIRST].map(bytes);
    for wrong in wrong_frames().concat() {
        for length in [0, 11, 12, 13] {
            assert_eq!(refused(&code, &first, &wrong, length), 23);
        }
    }
    assert_eq!(refused(&code, &first, &[1; 11], 12), 23);
}

#[test]
fn a_short_buffer_is_2() {
    let [code, first, second] = [CODE, FIRST, SECOND].map(bytes);
    for length in 0..12 {
        assert_eq!(refused(&code, &first, &second, length), 2);
    }
}
