//! Every engine for a check against the reference decoder: the benchmark's ratios are worth something
//! only if all of them are right.

use bench::{foreign, same, search_engine};
use reference_decoder::sample::{self, CheckSample, Generator, Style};
use reference_decoder::{record, Join, Refusal, Rule};

/// An engine, and from where on and up to where it is compared.
struct Candidate {
    name: &'static str,
    /// Below this degree the search refuses all, and so may an older library.
    least_degree: usize,
    /// The rules that it has; all but the same algorithm have k = 2 with the sum alone.
    has_rule: fn(Rule) -> bool,
    check: foreign::Call,
}

impl Candidate {
    /// The engines that this machine can run.
    fn all() -> Vec<Candidate> {
        let candidate = |name, least_degree, check| Candidate {
            name,
            least_degree,
            has_rule: |rule| rule.deviations() == 2 && rule.join() == Join::Sum,
            check,
        };
        let same = Candidate {
            has_rule: |_| true,
            ..candidate("same", 0, same::check)
        };
        let mut all = vec![
            same,
            candidate("search", 3, search_engine::check),
            candidate("SSE2", 0, foreign::check_sse2),
        ];
        all.extend(foreign::check_avx2().map(|check| candidate("AVX2", 0, check)));
        all.extend(foreign::old_library().map(|old| candidate("old", 3, old.check)));
        all
    }

    /// Whether it has checks like this one, where they are not refused.
    fn has(&self, check: &CheckSample) -> bool {
        check.degree() >= self.least_degree && Rule::new(check.first).map_or(true, self.has_rule)
    }
}

/// Every engine leaves what the reference decoder leaves, in a buffer of this length.
fn compare(generator: &mut Generator, check: &CheckSample, room: usize) {
    let before = generator.bytes(room);
    let mut expected = before.clone();
    let (first, weights, costs) = (check.first, &check.weights, &check.costs);
    let answer = reference_decoder::check(first, weights, costs, &mut expected);
    let answer = answer.map_err(Refusal::number);
    for candidate in Candidate::all() {
        if !candidate.has(check) {
            continue;
        }
        let (name, mut found) = (candidate.name, before.clone());
        let found_answer = (candidate.check)(first, weights, costs, &mut found);
        assert_eq!(found_answer, answer, "{name}");
        assert_eq!(found, expected, "{name}: {check:?}");
    }
}

fn record_length(check: &CheckSample) -> usize {
    record::length(check.rule(), check.degree())
}

#[test]
fn every_first_byte_and_degree_with_ties() {
    let mut generator = Generator::new(1);
    for first in (0..=u8::MAX).filter(|&first| Rule::new(first).is_ok()) {
        for degree in 2..=32 {
            for style in Style::ALL {
                for _ in 0..2 {
                    let check = sample::check(&mut generator, first, degree..=degree, style);
                    compare(&mut generator, &check, record_length(&check));
                }
            }
        }
    }
}

#[test]
fn refusals_and_buffers() {
    let mut generator = Generator::new(2);
    for round in 0..4_000 {
        let degree = if round % 8 == 0 { 2..=2 } else { 2..=32 };
        let first = sample::first_byte(&mut generator, 2..=6, 2..=3);
        let check = sample::check(&mut generator, first, degree, Style::ALL[round % 5]);
        let room = record_length(&check) + generator.below(3) - 1;
        let damaged = sample::damaged_check(&mut generator, &check);
        compare(&mut generator, &check, room);
        compare(&mut generator, &damaged, room);
    }
}

/// The search refuses what it cannot do.
#[test]
fn the_search_starts_at_degree_3() {
    let mut record = [9; 18];
    let answer = search_engine::check(2, &[1; 2], &[0; 8], &mut record);
    assert_eq!((answer, record), (Err(9), [9; 18]));
    assert_eq!(
        search_engine::check(2, &[1; 3], &[0; 12], &mut record),
        Ok(18)
    );
}
