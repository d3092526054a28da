//! Document 02, §7: "Trellis sweep engine." Every kept cost, and the same record and refusals as `check`.

use std::collections::BTreeSet;

use reference_decoder::sample::{self, bytes, CheckSample, Generator, Style};
use reference_decoder::sweep::{Kept, Sweeps};
use reference_decoder::{check, record, sweep, Decision, Refusal, Rule};

/// The first bytes with p = 2: both k, each in both editions.
const OF_FOUR_ELEMENTS: [u8; 4] = [0x02, 0x12, 0x22, 0x32];

/// The least cost for each count of deviations, 0 to k, and each partial sum: none where no choice exists.
type Cells = Vec<Vec<Option<i32>>>;

fn sweeps(sample: &CheckSample) -> Sweeps {
    Sweeps::new(sample.rule(), &sample.weights, &sample.costs)
}

/// What is kept, cell by cell.
fn cells(rule: Rule, kept: &Kept) -> Cells {
    let of_count = |count| {
        let sums = rule.field().elements();
        sums.map(|sum| kept.least(count, sum)).collect()
    };
    (0..=rule.deviations()).map(of_count).collect()
}

/// The same by trying every combination of symbols of these columns.
fn by_all_combinations(sample: &CheckSample, columns: &[usize]) -> Cells {
    let (rule, q) = (sample.rule(), sample.q());
    // With more than k deviations too.
    let mut least = vec![vec![None; q]; columns.len().max(rule.deviations()) + 1];
    for combination in 0..q.pow(columns.len() as u32) {
        let (mut rest, mut deviations, mut sum, mut cost) = (combination, 0, 0, 0);
        for &n in columns {
            let x = rest % q;
            rest /= q;
            let costs = &sample.costs[n * q..(n + 1) * q];
            deviations += usize::from(x != usize::from(Decision::of(costs).symbol));
            sum ^= usize::from(rule.field().product(sample.weights[n], x as u8));
            cost = rule.join().with(cost, i32::from(costs[x]));
        }
        let known: &mut Option<i32> = &mut least[deviations][sum];
        *known = Some(known.map_or(cost, |known| known.min(cost)));
    }
    least.truncate(rule.deviations() + 1);
    least
}

/// "the least cost over the columns before n, and the same over the columns after n": compares every cell of
/// a check. Answers how many hold a cost, and how many do not.
fn compare_kept(sample: &CheckSample) -> [usize; 2] {
    let (rule, sweeps) = (sample.rule(), sweeps(sample));
    let columns: Vec<usize> = (0..sample.degree()).collect();
    assert_eq!(sweeps.before.len(), columns.len());
    assert_eq!(sweeps.after.len(), columns.len());
    let mut counts = [0, 0];
    for n in 0..columns.len() {
        let before = (&sweeps.before[n], &columns[..n]);
        let after = (&sweeps.after[n], &columns[n + 1..]);
        for (kept, columns) in [before, after] {
            let found = cells(rule, kept);
            let expected = by_all_combinations(sample, columns);
            assert_eq!(found, expected, "{sample:?}, {columns:?}");
            for cost in found.concat() {
                counts[usize::from(cost.is_none())] += 1;
            }
        }
    }
    counts
}

#[test]
fn every_kept_cost_is_the_least_over_its_columns() {
    let mut generator = Generator::new(1);
    for first in OF_FOUR_ELEMENTS {
        for degree in 2..=4 {
            let mut counts = [0, 0];
            for style in Style::ALL.repeat(60) {
                let sample = sample::check(&mut generator, first, degree..=degree, style);
                let further = compare_kept(&sample);
                counts = [0, 1].map(|kind| counts[kind] + further[kind]);
            }
            assert!(counts.iter().all(|&count| count > 1_000), "{counts:?}");
        }
    }
}

#[test]
fn kept_costs_of_larger_fields() {
    let mut generator = Generator::new(2);
    for (p, degree, count) in [(3, 4, 10), (4, 3, 10), (5, 3, 4), (6, 3, 2)] {
        for style in Style::ALL.repeat(count) {
            let first = sample::first_byte(&mut generator, p..=p, 2..=3);
            let sample = sample::check(&mut generator, first, 2..=degree, style);
            compare_kept(&sample);
        }
    }
}

/// Columns 0 5 7 9 / 0 4 8 3 / 0 6 2 10, by hand: what is kept over the first two, and over the last alone.
#[test]
fn kept_costs_by_hand() {
    let none = vec![None; 4];
    let decided = vec![Some(0), None, None, None];
    let one = vec![None, Some(4), Some(7), Some(3)];
    let sums = [9, 10, 8, 11].map(Some).to_vec();
    let greatest = [5, 7, 5, 7].map(Some).to_vec();
    for (first, two) in OF_FOUR_ELEMENTS
        .into_iter()
        .zip([&sums, &greatest, &sums, &greatest])
    {
        let sample = CheckSample {
            first,
            weights: vec![1; 3],
            costs: bytes("00050709 00040803 0006020A"),
        };
        let counts = sample.rule().deviations() + 1;
        let rows = |rows: [&Vec<Option<i32>>; 4]| -> Cells {
            rows.into_iter().take(counts).cloned().collect()
        };
        let kept = |kept: &Kept| cells(sample.rule(), kept);
        let sweeps = sweeps(&sample);
        assert_eq!(kept(&sweeps.before[2]), rows([&decided, &one, two, &none]));
        let last = [None, Some(6), Some(2), Some(10)].to_vec();
        assert_eq!(
            kept(&sweeps.after[1]),
            rows([&decided, &last, &none, &none])
        );
        let of_none = rows([&decided, &none, &none, &none]);
        assert_eq!(kept(&sweeps.before[0]), of_none);
        assert_eq!(kept(&sweeps.after[2]), of_none);
    }
}

/// The bench table's record, and the same check in the other editions.
#[test]
fn records_by_hand() {
    let costs = bytes("00050709 00040803 0006020A");
    for (first, expected) in [
        (0x02, "000000 040105FF00 020207FF00 030107FF00"),
        (0x12, "000000 0301050204 020205FF00 030105FF00"),
        (0x22, "000000 040105FF00FF00 020207FF00FF00 030107FF00FF00"),
        (0x32, "000000 0301050204FF00 020205FF00FF00 030105FF00FF00"),
    ] {
        let expected = bytes(expected);
        let mut record = vec![0xA5; expected.len() + 1];
        let written = sweep(first, &[1; 3], &costs, &mut record);
        assert_eq!(written, Ok(expected.len()));
        assert_eq!(record, [&expected[..], &[0xA5]].concat());
    }
}

/// Lends both calls a record buffer of this length and arbitrary content; they answer and leave the same.
/// Answers the refusal's number, or 0.
fn compare(generator: &mut Generator, sample: &CheckSample, length: usize) -> u8 {
    let mut expected = generator.bytes(length);
    let mut found = expected.clone();
    let (first, weights, costs) = (sample.first, &sample.weights, &sample.costs);
    let answer = check(first, weights, costs, &mut expected);
    let found_answer = sweep(first, weights, costs, &mut found);
    assert_eq!(found_answer, answer, "{sample:?}");
    assert_eq!(found, expected, "{sample:?}");
    answer.map_or_else(Refusal::number, |_| 0)
}

/// Compares a check and a damaged one, with record buffers around the length of the record. Answers the
/// numbers of the refusals.
fn compare_around(generator: &mut Generator, sample: &CheckSample, first: u8) -> Vec<u8> {
    let length = record::length(sample.rule(), sample.degree());
    let damaged = sample::damaged_check(generator, sample);
    let sample = CheckSample {
        first,
        ..sample.clone()
    };
    let lengths = [length, length - 1, length + 1];
    let calls = lengths.map(|length| [(&sample, length), (&damaged, length)]);
    let calls = calls.as_flattened().iter();
    calls
        .map(|&(sample, length)| compare(generator, sample, length))
        .collect()
}

/// "It writes the same record for each accepted check, and refuses the same ones with the same numbers."
#[test]
fn every_first_byte_gives_what_check_gives() {
    let mut generator = Generator::new(3);
    let mut numbers = BTreeSet::new();
    for first in 0..=u8::MAX {
        let accepted = Rule::new(first).is_ok();
        for round in 0..if accepted { 80 } else { 4 } {
            let drawn = sample::first_byte(&mut generator, 2..=6, 2..=3);
            let of_check = if accepted { first } else { drawn };
            let degree = if round == 0 { 32..=32 } else { 2..=8 };
            let sample = sample::check(&mut generator, of_check, degree, Style::ALL[round % 5]);
            numbers.extend(compare_around(&mut generator, &sample, first));
        }
    }
    assert!(numbers.into_iter().eq([0, 4, 6, 9, 11, 12, 13]));
}
