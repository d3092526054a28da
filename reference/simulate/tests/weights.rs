//! The codes of the sweep over g by column weight, and which g is best.

use petsivola::Edition;
use reference_decoder::code_line;
use simulate::code::Code;
use simulate::encoder::Encoder;
use simulate::sweep::{Shape, Sweep};
use simulate::tally::Tally;
use simulate::trial::{Count, Rule, Setup};
use simulate::weights;

/// The checks of each column.
fn checks_by_column(code: &Code) -> Vec<Vec<usize>> {
    let mut columns = vec![Vec::new(); code.columns];
    for (place, check) in code.checks.iter().enumerate() {
        for edge in check {
            columns[edge.column].push(place);
        }
    }
    columns
}

#[test]
fn every_column_and_every_check_is_as_said() {
    for (code, (weight, degree)) in weights::codes().iter().zip([(2, 4), (3, 6), (4, 8)]) {
        assert!(code.checks.iter().all(|check| check.len() == degree));
        let columns = checks_by_column(code);
        assert!(columns.iter().all(|checks| checks.len() == weight));
        assert!(code_line(&code.line(2, Edition::Sum, 16, 255)).is_ok());
    }
}

#[test]
fn no_two_columns_share_two_checks() {
    for code in weights::codes() {
        let columns = checks_by_column(&code);
        for (place, one) in columns.iter().enumerate() {
            for other in &columns[..place] {
                let shared = one.iter().filter(|check| other.contains(check));
                assert!(shared.count() < 2);
            }
        }
    }
}

/// The checks of the quasi-cyclic codes do not depend on one another: half of the symbols are free.
#[test]
fn free_symbols() {
    let free = weights::codes().map(|code| Encoder::new(&code).message_length());
    assert_eq!(free, [48, 120, 137]);
}

/// A sweep with these frame errors of 100 frames, for g = 6, 7 and so on.
fn sweep(errors: &[usize]) -> Sweep {
    let count = |(g, &errors)| Count {
        decibels: 2.0,
        setup: Setup {
            rule: Rule::Proved(2, Edition::Sum),
            g,
            costs_per_nat: 8.0,
        },
        tally: Tally {
            frames: 100,
            not_found: errors,
            ..Tally::default()
        },
    };
    Sweep {
        shape: Shape {
            weight: 2,
            field: 4,
            columns: 8,
            free: 4,
            checks: 4,
            degree: 4,
        },
        counts: (6..).zip(errors).map(count).collect(),
    }
}

/// Wilson's interval for 10 errors in 100 frames is 0.0552 to 0.1744; for 27 it starts at 0.1928 and
/// for 20 at 0.1334.
#[test]
fn the_best_and_what_is_near_it() {
    let gs = |counts: Vec<&Count>| {
        counts
            .iter()
            .map(|count| count.setup.g)
            .collect::<Vec<u8>>()
    };
    let swept = sweep(&[90, 27, 20, 10, 11, 60]);
    assert_eq!(gs(swept.best()), [9]);
    assert_eq!(gs(swept.near()), [8, 9, 10]);
    assert_eq!(gs(sweep(&[4, 3, 3, 90]).best()), [7, 8]);
}
