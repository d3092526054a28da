//! Counting, the trials and the document.

use simulate::array;
use simulate::decoder::Outcome;
use simulate::plan::{best_g, Plan, Results, LIMIT, RULES};
use simulate::progress::Progress;
use simulate::report;
use simulate::sharing::LIMITS;
use simulate::tally::Tally;
use simulate::trial::{Count, Scene, Setup, Stop};

#[test]
fn frames_are_counted_once() {
    let outcome = |found| Outcome {
        found,
        iterations: 3,
    };
    let mut tally = Tally::default();
    tally.count(outcome(true), &[1, 2, 3], &[1, 2, 3]);
    tally.count(outcome(true), &[1, 2, 3], &[1, 0, 0]);
    tally.count(outcome(false), &[1, 2, 3], &[1, 2, 0]);
    let expected = Tally {
        frames: 3,
        symbols: 9,
        not_found: 1,
        wrong: 1,
        symbol_errors: 3,
        iterations: 9,
    };
    assert_eq!(tally, expected);
    assert_eq!(tally.frame_errors(), 2);
    assert_eq!(tally.mean_iterations(), 3.0);
}

/// Wilson's interval for 10 errors in 100 frames is 0.0552 to 0.1744.
#[test]
fn intervals() {
    let tally = Tally {
        frames: 100,
        not_found: 10,
        ..Tally::default()
    };
    let (low, high) = tally.interval();
    assert!((low - 0.0552).abs() < 1e-4 && (high - 0.1744).abs() < 1e-4);
    let none = Tally {
        frames: 100,
        ..Tally::default()
    };
    assert_eq!(none.interval().0, 0.0);
}

#[test]
fn the_same_seed_gives_the_same_counts() {
    let scene = Scene::new(array::code(), LIMIT);
    let stop = Stop {
        errors: 2,
        frames: 3,
    };
    let setups = RULES.map(|rule| Setup {
        rule,
        g: 8,
        costs_per_nat: 8.0,
    });
    let trial = |seed| scene.trial(2.0, &setups, stop, seed, &mut Progress::start());
    assert_eq!(trial(1), trial(1));
    assert_ne!(trial(1), trial(2));
}

/// Frame errors of both Eb/N0 count together, of the rule alone, and of equal g the smallest is best.
#[test]
fn the_best_g_of_a_sweep() {
    let count = |rule, decibels, g, errors| Count {
        decibels,
        setup: Setup {
            rule,
            g,
            costs_per_nat: 8.0,
        },
        tally: Tally {
            frames: 100,
            not_found: errors,
            ..Tally::default()
        },
    };
    let [sum, greatest, _] = RULES;
    let scaling = [
        count(sum, 2.5, 7, 30),
        count(sum, 2.5, 8, 31),
        count(sum, 2.5, 9, 33),
        count(greatest, 2.5, 9, 5),
        count(greatest, 2.5, 10, 4),
        count(sum, 2.75, 7, 20),
        count(sum, 2.75, 8, 14),
        count(sum, 2.75, 9, 12),
        count(greatest, 2.75, 9, 9),
        count(greatest, 2.75, 10, 9),
    ];
    assert_eq!(
        RULES[..2]
            .iter()
            .map(|&rule| best_g(&scaling, rule))
            .collect::<Vec<_>>(),
        [8, 10]
    );
}

#[test]
fn the_document_has_every_trial() {
    let scene = Scene::new(array::code(), LIMIT);
    let plan = Plan::sized(0.000_01, 1);
    let results = plan.run(&scene, &mut Progress::start());
    for count in results.curve.iter().chain(&results.costs) {
        assert_eq!(count.setup.g, best_g(&results.scaling, count.setup.rule));
    }
    assert_eq!(results.curve.len(), 3 * plan.curve.len());
    assert_eq!(results.scaling.len(), 3 * 7 * plan.scaling.len());
    assert_eq!(results.costs.len(), 3 * 5 * plan.costs.len());
    assert_eq!(results.weights.len(), plan.weights.len());
    let long = results.long_checks.iter().map(|code| code.curve.len());
    assert!(long.eq(plan.long_checks.iter().map(|code| 2 * code.curve.len())));
    assert_eq!(results.margins.len(), plan.margins.len());
    assert_eq!(results.sharing.len(), plan.sharing.len());
    assert_eq!(results.blows.len(), plan.blows.len());
    assert_eq!(results.early.len(), plan.early.len());
    let text = report::markdown(&plan, &scene.encoder, &results);
    tables_have_their_rows(&plan, &text);
    charts_have_their_lines(&results);
}

/// Each table has a row for each of its trials.
fn tables_have_their_rows(plan: &Plan, text: &str) {
    let rows = |rule: &str| {
        let cell = format!("| {rule} |");
        text.lines().filter(|line| line.contains(&cell)).count()
    };
    assert_eq!(rows("proved, k = 2"), 7 + 7 * 2 + 5 + (6 + 5) + 3);
    assert_eq!(rows("proved Min-Max, k = 2"), 7 + 7 * 2 + 5);
    assert_eq!(rows("Trellis Min-Max"), 7 + 7 * 2 + 5);
    assert_eq!(rows("proved, k = 3"), 6 + 5);
    assert_eq!(rows("161 to 510"), 3);
    for way in ["one blow", "better of two", "combined"] {
        assert_eq!(rows(way), plan.blows.len());
    }
    // The rows of so many cells from a heading on, the first of them the table's head.
    let rows_of = |heading: &str, cells: usize| {
        let (_, section) = text.split_once(heading).expect("the section");
        let section = section.split("\n## ").next().unwrap_or_default();
        let rows = section.lines().map(|line| line.matches(" | ").count() + 1);
        rows.filter(|&count| count == cells).count() - 1
    };
    let limits = rows_of("## One allowance for eight channels", 12);
    assert_eq!(limits, 3 * LIMITS.len());
    let early = [11, 10].map(|cells| rows_of("## Stopping inside an iteration", cells));
    assert_eq!(early, [plan.early.len(); 2]);
    let rows = text
        .lines()
        .filter(|line| line.matches(" of 1 |").count() == 3);
    assert_eq!(rows.count(), 11);
}

/// Each chart is a document with a line for each of its series.
fn charts_have_their_lines(results: &Results) {
    let charts = [
        report::chart(&results.curve),
        report::chart_of_long_checks(&results.long_checks),
        report::chart_of_margins(&results.margins),
        report::chart_of_sharing(&results.sharing),
        report::chart_of_blows(&results.blows),
        report::chart_of_early(&results.early),
    ];
    for (chart, lines) in charts.iter().zip([3, 4, 6, 6, 3, 2]) {
        let svg = chart.svg();
        assert!(svg.starts_with("<svg") && svg.ends_with("</svg>\n"));
        assert_eq!(chart.series.len(), lines);
    }
}
