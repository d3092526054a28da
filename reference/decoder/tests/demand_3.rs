//! Demand 3: when the stores of two decodings are equal. Document 02, §1: "The equality of stores is to
//! hold for degree 2 as well." Document 02, §3: "Everything about costs, records and equal stores is shown
//! a single time with k as a parameter". Document 02, §5: "demands 2 and 3 then mean this rule", and
//! "Stores are compared only between decodings of the same edition, which the same code line ensures."

use std::collections::HashMap;

use reference_decoder::machine::Machine;
use reference_decoder::sample::{self, bytes, Buffers, Generator, Size, Style};
use reference_decoder::{code_line, record, Code, Join};

/// One check on three columns, weights 1, scale 16, one iteration.
const ONE_CHECK: &str = "020003011001 03 000001 000101 000201";

/// The symbols and the used part of the store after a decoding of at least one iteration.
fn decoded(code: &[u8], frame: &[u8]) -> (Vec<u8>, Vec<u8>) {
    let lengths = code_line(code).expect("an accepted code line").lengths();
    let mut buffers = Buffers::zeroed(lengths);
    let outcome = buffers.decode(code, frame).expect("accepted");
    assert!(outcome.iterations() >= 1);
    (buffers.symbols, buffers.store)
}

#[test]
fn frames_with_equal_stores_and_different_symbols() {
    let code = bytes(ONE_CHECK);
    let first = decoded(&code, &bytes("05000907 00040803 0006020A"));
    let second = decoded(&code, &bytes("09070500 08030004 020A0006"));
    assert_ne!(first.0, second.0);
    assert_eq!(first.1, second.1);
}

#[test]
fn frames_with_equal_sent_costs_and_different_stores() {
    let line = bytes(ONE_CHECK);
    let code = code_line(&line).unwrap();
    let frames = [
        bytes("05000505 00000000 00000000"),
        bytes("05050005 00000000 00000000"),
    ];
    let sent = frames.each_ref().map(|frame| {
        let mut machine = Machine::start(&code, frame);
        assert_eq!(machine.run().iterations(), 1);
        let messages = machine.last_messages.into_iter();
        messages
            .map(|messages| messages.unwrap().sent)
            .collect::<Vec<_>>()
    });
    assert_eq!(sent[0], sent[1]);
    assert_ne!(decoded(&line, &frames[0]).1, decoded(&line, &frames[1]).1);
}

/// What [`compare_stores`] met.
#[derive(Debug, Default)]
struct Met {
    /// Frames with a store that an earlier frame had.
    equal: usize,
    /// Those of them with another number of iterations.
    with_different_iterations: usize,
    /// Stores in which some a has three pairs.
    with_three_pairs: usize,
}

/// Whether some a of a store's records has three pairs.
fn has_three_pairs(code: &Code, store: &[u8]) -> bool {
    let entry_length = 1 + 2 * code.rule().deviations();
    let mut records = store;
    code.checks.iter().any(|check| {
        let degree = check.weights.len();
        let (record, rest) = records.split_at(record::length(code.rule(), degree));
        records = rest;
        let mut entries = record[degree..].chunks_exact(entry_length);
        entries.any(|entry| entry.get(5).is_some_and(|&column| column != 0xFF))
    })
}

/// Demand 3: the used parts of two stores are equal "exactly when the two runs agree in this: at
/// the last update of every check, each column was sent the same sum of the other columns' weighted
/// hard decisions and, at each symbol, the same least cost before scaling". Tried on pairs of frames,
/// drawn under random codes of the size.
fn compare_stores(
    generator: &mut Generator,
    size: &Size,
    draw: fn(&mut Generator, &Code) -> Vec<u8>,
) -> Met {
    type Agreement = Vec<(Vec<u8>, Vec<Vec<u8>>)>;
    let mut met = Met::default();
    for _ in 0..40 {
        let line = sample::code(generator, size).line;
        let code = code_line(&line).unwrap();
        let mut by_store: HashMap<Vec<u8>, (Agreement, u8)> = HashMap::new();
        let mut by_agreement: HashMap<Agreement, Vec<u8>> = HashMap::new();
        for _ in 0..150 {
            let frame = draw(generator, &code);
            let mut machine = Machine::start(&code, &frame);
            let t = machine.run().iterations();
            if t == 0 {
                continue;
            }
            let messages = machine.last_messages.into_iter().flatten();
            let agreement: Agreement = messages.map(|m| (m.shifts, m.sent)).collect();
            let store = decoded(&line, &frame).1;
            met.with_three_pairs += usize::from(has_three_pairs(&code, &store));
            let known = by_agreement
                .entry(agreement.clone())
                .or_insert(store.clone());
            assert_eq!(known, &store);
            if let Some((known, known_t)) = by_store.get(&store) {
                assert_eq!(known, &agreement);
                met.equal += 1;
                met.with_different_iterations += usize::from(*known_t != t);
            }
            by_store.insert(store, (agreement, t));
        }
    }
    met
}

/// A frame of costs 0 and 16.
fn two_costs(generator: &mut Generator, code: &Code) -> Vec<u8> {
    let frame = sample::frame(generator, code, Style::NearZero);
    frame.into_iter().map(|cost| cost % 2 * 16).collect()
}

/// A frame in which a column decides for 0 or 1 and has at most one cheap symbol beside it: three
/// deviations of cheap symbols cost less than one of another.
fn few_cheap_symbols(generator: &mut Generator, code: &Code) -> Vec<u8> {
    let mut frame = Vec::new();
    for _ in 0..code.n {
        let decision = generator.below(2);
        let cheap = decision ^ generator.one_of(&[0, 2, 4, 6]);
        frame.extend((0..code.field().size()).map(|x| match x {
            _ if x == decision => 0,
            _ if x == cheap => 16,
            _ => 64,
        }));
    }
    frame
}

/// Each k with each edition.
const RULES: [(usize, Join); 4] = [
    (2, Join::Sum),
    (2, Join::Greatest),
    (3, Join::Sum),
    (3, Join::Greatest),
];

#[test]
fn stores_are_equal_exactly_when_the_last_updates_agree() {
    let mut generator = Generator::new(42);
    for (k, join) in RULES {
        let mut with_different_iterations = 0;
        for (columns, degree) in [(3..=4, 3..=3), (2..=4, 2..=3), (2..=4, 2..=2)] {
            let size = Size {
                p: 2..=2,
                k: k..=k,
                join: join..=join,
                columns,
                checks: 1..=3,
                degree,
                limit: 1..=3,
            };
            let met = compare_stores(&mut generator, &size, two_costs);
            assert!(met.equal > 100);
            with_different_iterations += met.with_different_iterations;
        }
        assert!(with_different_iterations > 0);
    }
}

/// The same where a third deviation counts.
#[test]
fn stores_of_three_deviations_are_equal_exactly_when_the_last_updates_agree() {
    let mut generator = Generator::new(43);
    for join in [Join::Sum, Join::Greatest] {
        let size = Size {
            p: 3..=3,
            k: 3..=3,
            join: join..=join,
            columns: 4..=4,
            checks: 1..=2,
            degree: 4..=4,
            limit: 1..=3,
        };
        let met = compare_stores(&mut generator, &size, few_cheap_symbols);
        assert!(met.equal > 100 && met.with_three_pairs > 1_000, "{met:?}");
    }
}
