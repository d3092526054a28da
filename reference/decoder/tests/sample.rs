//! The samples: those meant to be accepted are, they spread over their ranges, and damage meets
//! every refusal of the code line. (The other refusals are counted in `buffers.rs`.)

use std::collections::BTreeSet;

use reference_decoder::encode::has_encoding_form;
use reference_decoder::record::has_accepted_form;
use reference_decoder::sample::{self, Buffers, Generator, Size, Style};
use reference_decoder::{code_line, program, Decision, Join, Outcome, Refusal, Rule};

#[test]
fn a_seed_gives_the_same_samples() {
    let sample = |seed| sample::code(&mut Generator::new(seed), &Size::MEDIUM);
    assert_eq!(sample(1), sample(1));
    assert_ne!(sample(1), sample(2));
}

#[test]
fn first_bytes_spread_over_their_ranges() {
    let mut generator = Generator::new(100);
    let mut drawn = |p: u8, k: usize| {
        let draws = (0..200).map(|_| sample::first_byte(&mut generator, 2..=p, k..=3));
        draws.collect::<BTreeSet<u8>>()
    };
    let of_digits = |digits: &[u8], p: u8| {
        let bytes = digits
            .iter()
            .flat_map(|digit| (2..=p).map(move |p| 16 * digit + p));
        bytes.collect::<BTreeSet<u8>>()
    };
    assert_eq!(drawn(3, 2), of_digits(&[0, 1, 2, 3], 3));
    assert_eq!(drawn(4, 3), of_digits(&[2, 3], 4));
    assert_eq!(drawn(6, 2), of_digits(&[0, 1, 2, 3], 6));
    let mut drawn = |join| {
        let draws =
            (0..200).map(|_| sample::first_byte_with(&mut generator, 2..=4, 2..=3, join..=join));
        draws.collect::<BTreeSet<u8>>()
    };
    assert_eq!(drawn(Join::Sum), of_digits(&[0, 2], 4));
    assert_eq!(drawn(Join::Greatest), of_digits(&[1, 3], 4));
}

/// Each of the 256 first bytes, and those that are accepted among them.
#[test]
fn damaged_first_bytes_are_of_every_kind() {
    let mut generator = Generator::new(101);
    let [mut of_codes, mut of_checks] = [0; 2].map(|_| BTreeSet::<u8>::new());
    let line = sample::code(&mut generator, &Size::SMALL).line;
    let check = sample::check(&mut generator, 0x02, 2..=5, Style::Uniform);
    for _ in 0..40_000 {
        of_codes.extend(sample::damaged_code(&mut generator, &line).first());
        of_checks.insert(sample::damaged_check(&mut generator, &check).first);
    }
    assert_eq!((of_codes.len(), of_checks.len()), (256, 256));
}

#[test]
fn rising_numbers_are_different_and_below_the_bound() {
    let mut generator = Generator::new(90);
    for bound in 1..40 {
        let count = generator.between(0..=bound);
        let numbers = generator.rising(count, bound);
        assert_eq!(numbers.len(), count);
        assert!(numbers.windows(2).all(|pair| pair[0] < pair[1]));
        assert!(numbers.iter().all(|&number| number < bound));
    }
    assert_eq!(generator.rising(5, 5), [0, 1, 2, 3, 4]);
}

#[test]
fn codes_are_accepted_and_their_words_satisfy_them() {
    let mut generator = Generator::new(91);
    let mut sizes = BTreeSet::new();
    let (mut of_two_columns, mut checks_on_two_columns) = (0, 0);
    for size in [
        Size::SMALL,
        Size::MEDIUM,
        Size::FULL,
        Size::MOST_CHECKS,
        Size::MOST_DEGREE,
    ] {
        for _ in 0..40 {
            let sample = sample::code(&mut generator, &size);
            let code = code_line(&sample.line).expect("an accepted code line");
            let field = code.field();
            for check in &code.checks {
                let mut sum = 0;
                for (&column, &weight) in check.columns.iter().zip(&check.weights) {
                    sum ^= field.product(weight, sample.word[column]);
                }
                assert_eq!(sum, 0);
                assert!(size.degree.contains(&check.weights.len()));
                checks_on_two_columns += usize::from(check.weights.len() == 2);
            }
            assert!(size.columns.contains(&code.n) && size.checks.contains(&code.m));
            sizes.insert((
                code.field().p(),
                code.rule().deviations(),
                code.rule().join(),
            ));
            of_two_columns += usize::from(code.n == 2);
        }
    }
    assert_eq!(sizes.len(), 5 * 2 * 2, "{sizes:?}");
    assert!(of_two_columns > 0 && checks_on_two_columns > 100);
}

#[test]
fn frames_are_accepted_and_runs_end_in_every_way() {
    let mut generator = Generator::new(92);
    let mut kinds = BTreeSet::new();
    for _ in 0..300 {
        let sample = sample::code(&mut generator, &Size::SMALL);
        let code = code_line(&sample.line).unwrap();
        let style = generator.one_of(&Style::ALL);
        let wrong = generator.below(code.n);
        let frames = [
            sample::frame(&mut generator, &code, style),
            sample::noisy_frame(&mut generator, &code, &sample.word, wrong, style),
        ];
        for frame in frames {
            let outcome = Buffers::zeroed(code.lengths()).decode(&sample.line, &frame);
            kinds.insert(match outcome.expect("an accepted frame") {
                Outcome::Found(0) => "found at the start",
                Outcome::Found(1) => "found after one iteration",
                Outcome::Found(_) => "found after more iterations",
                Outcome::NotFound(_) => "not found",
            });
        }
    }
    assert_eq!(kinds.len(), 4, "{kinds:?}");
}

#[test]
fn a_noisy_frame_without_wrong_columns_decides_for_the_word() {
    let mut generator = Generator::new(93);
    for style in Style::ALL {
        let sample = sample::code(&mut generator, &Size::MEDIUM);
        let code = code_line(&sample.line).unwrap();
        for wrong in [0, 3] {
            let frame = sample::noisy_frame(&mut generator, &code, &sample.word, wrong, style);
            let columns = frame.chunks(code.field().size());
            let differences = columns
                .zip(&sample.word)
                .filter(|&(costs, &symbol)| Decision::of(costs).symbol != symbol);
            assert_eq!(differences.count(), wrong);
        }
    }
}

#[test]
fn records_have_accepted_form() {
    let mut generator = Generator::new(94);
    for _ in 0..300 {
        let first = sample::first_byte(&mut generator, 2..=6, 2..=3);
        let degree = generator.between(2..=32);
        let record = sample::record(&mut generator, first, degree);
        assert!(has_accepted_form(
            Rule::new(first).unwrap(),
            degree,
            &record
        ));
    }
}

#[test]
fn damaged_codes_meet_every_refusal() {
    let mut generator = Generator::new(95);
    let mut numbers = BTreeSet::new();
    for _ in 0..2_000 {
        let line = sample::code(&mut generator, &Size::SMALL).line;
        let damaged = sample::damaged_code(&mut generator, &line);
        numbers.insert(code_line(&damaged).err().map_or(0, Refusal::number));
    }
    assert_eq!(numbers, BTreeSet::from([0, 5, 6, 7, 8, 9, 10, 11]));
}

/// N to 256, M to 128, degrees 2 to 32 and 1,024 edges, each with the form.
#[test]
fn encodable_codes_are_accepted_and_spread_over_their_ranges() {
    let mut generator = Generator::new(98);
    let mut met = BTreeSet::new();
    for size in [
        Size::SMALL,
        Size::MEDIUM,
        Size::FULL,
        Size::MOST_CHECKS,
        Size::MOST_DEGREE,
    ] {
        for _ in 0..200 {
            let code = sample::encodable_code(&mut generator, &size);
            assert_eq!(code_line(&code.line()).as_ref(), Ok(&code));
            assert!(has_encoding_form(&code));
            assert!(size.columns.contains(&code.n) && code.m <= *size.checks.end());
            let degrees = code.checks.iter().map(|check| check.columns.len());
            let edges = degrees.clone().sum();
            met.extend([
                ("first", usize::from(code.first)),
                ("N", code.n),
                ("M", code.m),
            ]);
            met.extend([("N - M", code.n - code.m), ("edges", edges)]);
            met.extend(degrees.map(|degree| ("degree", degree)));
            let message = sample::message(&mut generator, &code);
            assert_eq!(message.len(), code.n - code.m);
            assert!(message.iter().all(|&symbol| code.field().contains(symbol)));
        }
    }
    let most = [("N", 256), ("M", 128), ("edges", 1_024)];
    let least = [("N", 2), ("M", 1), ("N - M", 1), ("edges", 2)];
    for bound in most.into_iter().chain(least) {
        assert!(met.contains(&bound), "{bound:?}");
    }
    let mut first_bytes = (0..=3).flat_map(|digit| (2..=6).map(move |p| 16 * digit + p));
    assert!(first_bytes.all(|first| met.contains(&("first", first))));
    assert!((2..=32).all(|degree| met.contains(&("degree", degree))));
}

#[test]
fn damaged_messages_are_of_another_length_or_hold_another_number() {
    let mut generator = Generator::new(99);
    let (mut lengths, mut symbols) = (BTreeSet::new(), BTreeSet::new());
    for _ in 0..2_000 {
        let message = [3; 10];
        let damaged = sample::damaged_message(&mut generator, 8, &message);
        lengths.insert(damaged.len());
        symbols.extend(damaged.into_iter().filter(|&symbol| symbol >= 8));
    }
    for length in [0, 9, 10, 11, 266] {
        assert!(lengths.contains(&length), "{length}");
    }
    for symbol in [8, 9, 255] {
        assert!(symbols.contains(&symbol), "{symbol}");
    }
}

/// A line of one check with all edges but the first taken off, so that only its degree is wrong, and
/// with all but the first two.
#[test]
fn damaged_codes_are_on_both_sides_of_the_least_degree() {
    let mut generator = Generator::new(97);
    let size = Size {
        checks: 1..=1,
        ..Size::SMALL
    };
    let mut met = [0, 0];
    for _ in 0..4_000 {
        let line = sample::code(&mut generator, &size).line;
        let [one, two] = [1, 2]
            .map(|edges| [&line[..6], &[edges], &line[7..][..3 * usize::from(edges)]].concat());
        assert_eq!(code_line(&one).err().map(Refusal::number), Some(9));
        assert!(code_line(&two).is_ok());
        let damaged = sample::damaged_code(&mut generator, &line);
        met[0] += usize::from(damaged == one);
        met[1] += usize::from(damaged == two && damaged != line);
    }
    assert!(met.iter().all(|&count| count > 5), "{met:?}");
}

#[test]
fn program_inputs_meet_results_and_refusals() {
    let mut generator = Generator::new(96);
    let mut starts = BTreeSet::new();
    for _ in 0..300 {
        let output = program(&sample::program_input(&mut generator, &Size::SMALL, 5));
        let lines = output
            .split(|&byte| byte == b'\n')
            .filter(|line| !line.is_empty());
        starts.extend(lines.map(|line| String::from_utf8_lossy(&line[..2]).into_owned()));
    }
    for status in ["00", "01", "05", "0C", "0D", "0E", "0F"] {
        assert!(starts.contains(status), "{status}");
    }
}
