//! Document 01, "Layered machine", with the checks of document 02, §1, the deviations of §3 and the margins
//! of §6.

use reference_decoder::machine::Machine;
use reference_decoder::record::has_accepted_form;
use reference_decoder::sample::{self, bytes, Buffers, Generator, Size, Style};
use reference_decoder::{code_line, Decision, Outcome};

/// What a decoding leaves in the used parts of its buffers.
#[derive(Debug, PartialEq)]
struct Decoded {
    outcome: Outcome,
    symbols: Vec<u8>,
    costs: Vec<u16>,
    store: Vec<u8>,
    margins: Vec<u16>,
}

/// Decodes in buffers of the used length that held 0 before.
fn decoded(code: &[u8], frame: &[u8]) -> Decoded {
    let lengths = code_line(code).expect("an accepted code line").lengths();
    let mut buffers = Buffers::zeroed(lengths);
    Decoded {
        outcome: buffers.decode(code, frame).expect("accepted"),
        symbols: buffers.symbols,
        costs: buffers.costs,
        store: buffers.store,
        margins: buffers.margins,
    }
}

impl Decoded {
    /// The decisions, with their margins.
    fn decisions(&self) -> Vec<Decision> {
        let decided = self.symbols.iter().zip(&self.margins);
        let decided = decided.map(|(&symbol, &margin)| Decision { symbol, margin });
        decided.collect()
    }
}

/// One check on three columns, weights 1, scale 16, one iteration.
const ONE_CHECK: &str = "020003011001 03 000001 000101 000201";

#[test]
fn the_example_of_the_program() {
    // Sent costs 0 4 2 3 / 5 0 7 2 / 4 0 3 7 are added to the frame, then the least subtracted.
    let expected = Decoded {
        outcome: Outcome::Found(1),
        symbols: vec![1, 1, 0],
        costs: vec![1, 0, 7, 6, 1, 0, 11, 1, 0, 2, 1, 13],
        store: bytes("000101 040105FF00 020207FF00 030107FF00"),
        margins: vec![1, 1, 1],
    };
    assert_eq!(
        decoded(&bytes(ONE_CHECK), &bytes("05000907 00040803 0006020A")),
        expected
    );
}

#[test]
fn the_scale_rounds_down() {
    // With g = 8 the scaled costs are 0 2 1 1 / 2 0 3 1 / 2 0 1 3. The next update subtracts them
    // and finds the same Q, so nothing changes up to the limit.
    for limit in [1, 2, 9] {
        let mut code = bytes(ONE_CHECK);
        code[4..6].copy_from_slice(&[8, limit]);
        let expected = Decoded {
            outcome: Outcome::NotFound(limit),
            symbols: vec![1, 0, 0],
            costs: vec![3, 0, 8, 6, 0, 2, 9, 2, 0, 4, 1, 11],
            store: bytes("000101 040105FF00 020207FF00 030107FF00"),
            margins: vec![3, 2, 1],
        };
        assert_eq!(
            decoded(&code, &bytes("05000907 00040803 0006020A")),
            expected
        );
    }
}

#[test]
fn found_at_the_start_makes_no_iteration_and_leaves_the_store() {
    let frame = bytes("00000907 00040803 0006020A");
    let mut buffers = Buffers {
        symbols: vec![9; 4],
        costs: vec![999; 13],
        store: vec![7; 18],
        margins: vec![999; 4],
    };
    let outcome = buffers.decode(&bytes(ONE_CHECK), &frame);
    assert_eq!(outcome, Ok(Outcome::Found(0)));
    assert_eq!(buffers.symbols, [0, 0, 0, 9]);
    let costs = [0, 0, 9, 7, 0, 4, 8, 3, 0, 6, 2, 10, 999];
    assert_eq!(buffers.costs, costs);
    assert_eq!(buffers.store, [7; 18]);
    assert_eq!(buffers.margins, [0, 3, 2, 999]);
}

/// Runs of several iterations over several checks, with costs above 255. Their values come from a
/// separate calculation that tries all combinations of symbols in each check. In each of them the
/// costs or the records would be others if the cap at 255 came before the least is subtracted.
#[test]
fn runs_of_several_iterations() {
    let cases = [
        (
            "020003020D03 03 000002 000102 000203 03 000003 000102 000202",
            "3AE35300 664A4E00 035900FD",
            Outcome::Found(2),
            vec![0, 270, 42, 42, 0, 37, 162, 27, 0, 126, 79, 217],
            "000000 5700700168 30007CFF00 2701A3FF00 010001 120138FF00 210055FF00 1D0143FF00",
        ),
        (
            "020003031004 03 000002 000101 000203 03 000001 000101 000203 03 000003 000102 000203",
            "00FFFAFC FA00FDFC FE00FFFB",
            Outcome::Found(3),
            vec![0, 500, 510, 500, 0, 500, 500, 510, 0, 500, 510, 500],
            "000000 1300E8FF00 0B00E3FF00 0900EBFF00 000000 E600FEFF00 F000F2FF00 F302F7FF00 \
             000000 FFFF00FF00 F501FFFF00 F502FFFF00",
        ),
        (
            "020004030F04 03 000001 000203 000301 03 000002 000102 000201 \
             04 000003 000103 000202 000301",
            "7E0081DB FB8D0022 AC440062 700D00AE",
            Outcome::NotFound(4),
            vec![
                114, 0, 173, 162, 162, 257, 0, 45, 170, 120, 0, 81, 118, 0, 38, 83,
            ],
            "010100 2500360239 150229FF00 100027FF00 030003 160133FF00 0B0174FF00 0B001CFF00 \
             00020001 3A0253034D 1E024AFF00 1C0347FF00",
        ),
    ];
    for (code, frame, outcome, costs, store) in cases {
        let decoded = decoded(&bytes(code), &bytes(frame));
        assert_eq!(decoded.outcome, outcome);
        assert_eq!(decoded.costs, costs);
        assert_eq!(decoded.store, bytes(store));
        let decisions = costs.chunks(4).map(Decision::of);
        assert!(decisions.eq(decoded.decisions()));
    }
}

/// One frame under one code with k = 2 and with k = 3, which saves it. As above the values come from a
/// separate calculation.
#[test]
fn a_frame_that_a_third_deviation_saves() {
    let cases = [
        (
            "03",
            Outcome::NotFound(3),
            vec![
                15, 27, 178, 102, 120, 0, 132, 168, 103, 0, 42, 129, 0, 212, 199, 167, 184, 6, 144,
                115, 173, 183, 0, 164, 0, 1, 137, 44, 102, 206, 129, 78, 66, 0, 92, 84, 163, 170,
                8, 185,
            ],
            "06000101 290062FF00 110112FF00 3A00710171 2E007C0343 05031AFF00 51008A0279 \
             1601170328 04020306 130366FF00 2701400240 53005C035C 2D02A1034F 1A023CFF00 \
             20013A0359 0D0127FF00",
        ),
        (
            "23",
            Outcome::Found(2),
            vec![
                33, 68, 201, 141, 155, 0, 173, 186, 116, 0, 29, 142, 5, 230, 208, 173, 185, 7, 161,
                132, 190, 201, 0, 164, 37, 0, 167, 76, 142, 245, 165, 119, 87, 0, 100, 112, 188,
                195, 24, 202,
            ],
            "03050401 190084FF00FF00 11011BFF00FF00 2A00860145FF00 1E006A0333FF00 05031AFF00FF00 \
             2F006C01400340 1601200327FF00 01070303 130356FF00FF00 1501300247FF00 280143025A0369 \
             1B02670376FF00 08023CFF00FF00 20013B0363FF00 0D0128FF00FF00",
        ),
    ];
    let rest = "0005 02 08 03 04 000002 000104 000307 000402 04 000005 000201 000305 000404";
    let frame =
        "0020E9B2B21399A9 8F111A9E00F3EDBB BB00B38DB3C70DBA 0E009D54A8F7CA73 501E905BE9D100E0";
    for (first, outcome, costs, store) in cases {
        let decoded = decoded(&bytes(&format!("{first} {rest}")), &bytes(frame));
        assert_eq!(decoded.outcome, outcome);
        assert_eq!(decoded.costs, costs);
        assert_eq!(decoded.store, bytes(store));
    }
}

/// Two checks on two columns each, the second with weights 1 and 3. What column 2 brings reaches column
/// 0 in the second iteration, and turns its decision.
#[test]
fn checks_on_two_columns() {
    let code = bytes("020003021002 02 000001 000101 02 000101 000203");
    let expected = Decoded {
        outcome: Outcome::Found(2),
        symbols: vec![1, 1, 2],
        costs: vec![5, 0, 20, 9, 5, 0, 20, 9, 5, 9, 0, 20],
        store: vec![
            1, 0, 5, 0, 10, 255, 0, 5, 1, 7, 255, 0, 9, 0, 18, 255, 0, 1, 0, 1, 0, 6, 255, 0, 2, 1,
            11, 255, 0, 8, 0, 10, 255, 0,
        ],
        margins: vec![5, 5, 5],
    };
    let frame = [0, 5, 7, 9, 4, 0, 8, 3, 6, 2, 0, 10];
    assert_eq!(decoded(&code, &frame), expected);
}

/// The least code there is: N = 2, and one check on both columns.
#[test]
fn the_code_of_two_columns() {
    let code = bytes("020002011003 02 000001 000101");
    // Each column is sent the other's costs, 4 0 8 3 and 0 5 7 9: both sums are 4 5 15 12.
    let expected = Decoded {
        outcome: Outcome::Found(1),
        symbols: vec![0, 0],
        costs: vec![0, 1, 11, 8, 0, 1, 11, 8],
        store: bytes("0100 040105FF00 030107FF00 080109FF00"),
        margins: vec![1, 1],
    };
    let frame = bytes("00050709 04000803");
    assert_eq!(decoded(&code, &frame), expected);
}

#[test]
fn a_column_in_no_check_keeps_its_costs() {
    let code = bytes("020005011001 03 000001 000201 000401");
    let frame = bytes("05000907 09FF0001 00040803 FFFFFF00 0006020A");
    let decoded = decoded(&code, &frame);
    assert_eq!(decoded.outcome, Outcome::Found(1));
    assert_eq!(decoded.symbols, [1, 2, 1, 3, 0]);
    assert_eq!(decoded.margins, [1, 1, 1, 255, 1]);
    assert_eq!(decoded.costs[4..8], [9, 255, 0, 1]);
    assert_eq!(decoded.costs[12..16], [255, 255, 255, 0]);
}

#[test]
fn costs_stay_in_range_and_the_result_is_the_first_satisfied_test() {
    let mut generator = Generator::new(40);
    for count in 0..400 {
        let size = [Size::SMALL, Size::MEDIUM][usize::from(count % 8 == 0)].clone();
        let sample = sample::code(&mut generator, &size);
        let code = code_line(&sample.line).unwrap();
        let style = generator.one_of(&Style::ALL);
        let wrong = generator.between(0..=code.n);
        let frame = sample::noisy_frame(&mut generator, &code, &sample.word, wrong, style);
        let mut machine = Machine::start(&code, &frame);
        let mut satisfied = vec![machine.satisfies_every_check()];
        while !satisfied.last().unwrap() && machine.iterations < code.limit {
            machine.iterations += 1;
            for check in 0..code.m {
                machine.update(check);
                for costs in &machine.costs {
                    assert!(costs.iter().all(|cost| (0..=510).contains(cost)));
                    assert!(costs.contains(&0));
                }
            }
            satisfied.push(machine.satisfies_every_check());
        }
        let t = u8::try_from(satisfied.len() - 1).unwrap();
        let expected = match satisfied.last() {
            Some(true) => Outcome::Found(t),
            _ => Outcome::NotFound(code.limit),
        };
        let decoded = decoded(&sample.line, &frame);
        assert_eq!(decoded.outcome, expected);
        assert_eq!(decoded.decisions(), machine.decisions());
        assert!(decoded
            .costs
            .iter()
            .map(|&cost| i32::from(cost))
            .eq(machine.costs.concat()));
    }
}

#[test]
fn codes_at_the_limits_decode() {
    let mut generator = Generator::new(41);
    let sizes = [Size::MOST_CHECKS, Size::MOST_DEGREE];
    for (size, k) in sizes.iter().flat_map(|size| [(size, 2), (size, 3)]) {
        let size = Size {
            k: k..=k,
            ..size.clone()
        };
        let sample = sample::code(&mut generator, &size);
        let code = code_line(&sample.line).unwrap();
        let entry_length = 1 + 2 * k;
        let frame = sample::noisy_frame(&mut generator, &code, &sample.word, 4, Style::Uniform);
        let decoded = decoded(&sample.line, &frame);
        assert!((1..=code.limit).contains(&decoded.outcome.iterations()));
        let mut records = &decoded.store[..];
        for check in &code.checks {
            let degree = check.weights.len();
            let (record, rest) = records.split_at(degree + entry_length * 63);
            assert!(has_accepted_form(code.rule(), degree, record));
            records = rest;
        }
        assert!(records.is_empty());
    }
}
