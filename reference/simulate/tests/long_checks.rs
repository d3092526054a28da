//! The codes with long checks, and which frames their trials count.

use petsivola::Edition;
use reference_decoder::code_line;
use reference_decoder::sample::Generator;
use simulate::code::Code;
use simulate::encoder::Encoder;
use simulate::long_checks::{self, Trials};
use simulate::progress::Progress;
use simulate::trial::{Rule, Stop};

/// Which checks each column is in.
fn checks_by_column(code: &Code) -> Vec<Vec<usize>> {
    let mut columns = vec![Vec::new(); code.columns];
    for (place, check) in code.checks.iter().enumerate() {
        for edge in check {
            columns[edge.column].push(place);
        }
    }
    columns
}

#[test]
fn every_column_and_every_check_is_as_said() {
    for (code, (degree, columns)) in long_checks::codes().iter().zip([(24, 192), (32, 256)]) {
        assert_eq!((code.columns, code.checks.len()), (columns, 32));
        assert!(code.checks.iter().all(|check| check.len() == degree));
        assert!(checks_by_column(code)
            .iter()
            .all(|checks| checks.len() == 4));
        for k in [2, 3] {
            let read =
                code_line(&code.line(k, Edition::Sum, 8, 15)).expect("an accepted code line");
            assert_eq!(read.rule().deviations(), k);
        }
    }
}

#[test]
fn no_two_columns_share_three_checks() {
    for code in long_checks::codes() {
        let columns = checks_by_column(&code);
        let mut most = 0;
        for (place, one) in columns.iter().enumerate() {
            for other in &columns[..place] {
                most = most.max(one.iter().filter(|check| other.contains(check)).count());
            }
        }
        assert_eq!(most, 2);
    }
}

/// The checks do not depend on one another.
#[test]
fn free_symbols() {
    let free = long_checks::codes().map(|code| Encoder::new(&code).message_length());
    assert_eq!(free, [160, 224]);
}

/// Both k get the same frames, with each g and in the curve, where each has its best g.
#[test]
fn the_curve_has_the_best_g_of_each_k() {
    let stop = Stop {
        errors: 3,
        frames: 3,
    };
    let trials = Trials {
        sweep: (4.0, stop),
        curve: vec![(4.0, stop), (4.5, stop)],
    };
    let [code, _] = long_checks::codes();
    let run = |seed| {
        let seeds = &mut Generator::new(seed);
        long_checks::run(code.clone(), &trials, seeds, &mut Progress::start())
    };
    let found = run(1);
    for (k, sweep) in [2, 3].into_iter().zip(&found.sweeps) {
        assert!(sweep.counts.iter().map(|count| count.setup.g).eq(5..=11));
        let is_k = |rule| rule == Rule::Proved(k, Edition::Sum);
        assert!(sweep.counts.iter().all(|count| is_k(count.setup.rule)));
        let of_k: Vec<_> = found
            .curve
            .iter()
            .filter(|count| is_k(count.setup.rule))
            .collect();
        let places: Vec<f64> = of_k.iter().map(|count| count.decibels).collect();
        assert_eq!(places, [4.0, 4.5]);
        assert!(of_k
            .iter()
            .all(|count| count.setup == sweep.best()[0].setup));
    }
    assert_eq!(run(1), found);
}
