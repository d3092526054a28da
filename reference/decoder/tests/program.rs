//! Document 01, "Program".

use std::io::{Read, Write};
use std::process::{Command, Stdio};

use reference_decoder::program::run;
use reference_decoder::sample::{self, bytes, Generator, Size};
use reference_decoder::{frame_line, program};

const CODE: &str = "02000301100103000001000101000201";
const FRAME: &str = "05000907000408030006020A";
const RESULT: &str = "0001010100\n";

/// The program's output as text.
fn output(input: impl AsRef<[u8]>) -> String {
    String::from_utf8(program(input.as_ref())).expect("digits and 0A")
}

#[test]
fn the_example() {
    assert_eq!(output(format!("{CODE}\n{FRAME}\n")), RESULT);
}

#[test]
fn one_line_is_printed_for_each_frame() {
    let found_at_once = "00000907000408030006020A";
    let input = format!("{CODE}\n{FRAME}\n{found_at_once}\n{FRAME}\n");
    assert_eq!(output(input), format!("{RESULT}0000000000\n{RESULT}"));
    let code = CODE.replacen("1001", "0102", 1);
    assert_eq!(output(format!("{code}\n{FRAME}\n")), "0102010000\n");
    assert_eq!(output(format!("{CODE}\n")), "");
    assert_eq!(output(CODE), "");
}

/// Document 02, §1: two such checks on three columns, and one on two.
#[test]
fn checks_on_two_columns() {
    let code = "0200030210020200000100010102000101000203";
    let frame = "00050709040008030602000A";
    assert_eq!(output(format!("{code}\n{frame}\n")), "0002010102\n");
    let code = "02000201100302000001000101";
    let frame = "0005070904000803";
    assert_eq!(output(format!("{code}\n{frame}\n")), "00010000\n");
}

/// Document 02, §3: one frame under one code, with k = 2 and with k = 3.
#[test]
fn three_deviations() {
    let rest = "00050208030400000200010400030700040204000005000201000305000404";
    let frame = "0020E9B2B21399A98F111A9E00F3EDBBBB00B38DB3C70DBA0E009D54A8F7CA73501E905BE9D100E0";
    let printed = |first: &str| output(format!("{first}{rest}\n{frame}\n"));
    assert_eq!(printed("03"), "01030501060001\n");
    assert_eq!(printed("23"), "00020501060101\n");
    assert_eq!(printed("43"), "0600\n");
}

/// Document 02, §5: one frame under one code in both editions, with k = 2 and with k = 3.
#[test]
fn both_editions() {
    let rest = "00050208030400000200010400030700040204000005000201000305000404";
    let frame = "0E635DB200544FA40059177016702D87008338BB2AAD62E600062329575D7B811346003245783264";
    let printed = |first: &str| output(format!("{first}{rest}\n{frame}\n"));
    assert_eq!(printed("03"), "01030400000002\n");
    assert_eq!(printed("13"), "00020000000000\n");
    assert_eq!(printed("33"), "00020000000000\n");
    assert_eq!(printed("17"), "0600\n");
}

#[test]
fn empty_input_and_empty_lines() {
    assert_eq!(output(""), "0500\n");
    assert_eq!(output("\n"), "0500\n");
    assert_eq!(output(format!("\n{CODE}\n{FRAME}\n")), "0500\n");
    assert_eq!(
        output(format!("{CODE}\n\n{FRAME}\n\n")),
        format!("0C00\n{RESULT}0C00\n")
    );
}

#[test]
fn a_last_line_without_0a_counts() {
    assert_eq!(output(format!("{CODE}\n{FRAME}")), RESULT);
    assert_eq!(
        output(format!("{CODE}\n{FRAME}\n0")),
        format!("{RESULT}0E00\n")
    );
    assert_eq!(output("02"), "0500\n");
}

#[test]
fn a_refused_code_line_ends_the_program() {
    for (code, expected) in [
        ("0200030110", "0500\n"),
        ("070003011001", "0600\n"),
        ("020000011001", "0700\n"),
        ("020003011101", "0800\n"),
        ("02000301100101", "0900\n"),
        ("02000301100102", "0500\n"),
        ("02000101100102000001000101", "0A00\n"),
        ("02000301100103000001000101000301", "0A00\n"),
        ("02000301100103000001000101000200", "0B00\n"),
        ("0200030110010300000100010100020", "0E00\n"),
        ("02000301100103000001000101000201\r", "0E00\n"),
    ] {
        assert_eq!(output(format!("{code}\n{FRAME}\n{FRAME}\n")), expected);
    }
    let long = "0".repeat(32_769);
    assert_eq!(output(format!("{long}\n{FRAME}\n")), "0F00\n");
}

#[test]
fn refused_frame_lines() {
    for (frame, expected) in [
        ("05000907000408030006020A\r", "0E00\n"),
        ("05000907000408030006020a", "0E00\n"),
        ("05000907000408030006020", "0E00\n"),
        ("05000907 000408030006020A", "0E00\n"),
        ("05000907000408030006020A00", "0C00\n"),
        ("05010907000408030006020A", "0D00\n"),
        ("050109070004080300060", "0E00\n"),
    ] {
        let input = format!("{CODE}\n{FRAME}\n{frame}\n{FRAME}\n");
        assert_eq!(output(input), format!("{RESULT}{expected}{RESULT}"));
    }
}

#[test]
fn the_rest_of_a_long_line_is_skipped() {
    for (length, expected) in [
        (32_768, "0C00\n"),
        (32_769, "0F00\n"),
        (32_770, "0F00\n"),
        (100_000, "0F00\n"),
    ] {
        let long = "0".repeat(length);
        let input = format!("{CODE}\n{long}\n{FRAME}\n{long}");
        assert_eq!(output(input), format!("{expected}{RESULT}{expected}"));
        let other_bytes = "x\r".repeat(length / 2);
        let expected = if length < 32_770 { "0E00\n" } else { "0F00\n" };
        assert_eq!(output(format!("{CODE}\n{other_bytes}")), expected);
    }
}

#[test]
fn a_frame_line_under_a_refused_code_prints_the_codes_number() {
    assert_eq!(frame_line(&[], FRAME.as_bytes()), b"0500\n");
    assert_eq!(frame_line(&[], b"0"), b"0E00\n");
    assert_eq!(frame_line(&[], &[b'0'; 32_769]), b"0F00\n");
    assert_eq!(
        frame_line(&bytes(CODE), FRAME.as_bytes()),
        RESULT.as_bytes()
    );
}

#[test]
fn the_input_ends_at_the_limit() {
    let input = format!("{CODE}\n{FRAME}\n{FRAME}\n");
    for (limit, expected) in [
        (0, "0500\n".to_string()),
        (3, "0E00\n".to_string()),
        (4, "0500\n".to_string()),
        (CODE.len(), String::new()),
        (CODE.len() + 1, String::new()),
        (CODE.len() + FRAME.len(), "0E00\n".to_string()),
        (CODE.len() + 1 + FRAME.len(), RESULT.to_string()),
        (CODE.len() + 1 + FRAME.len() + 1, RESULT.to_string()),
        (CODE.len() + 1 + FRAME.len() + 3, format!("{RESULT}0C00\n")),
    ] {
        let mut printed = Vec::new();
        run(input.as_bytes(), &mut printed, limit as u64).unwrap();
        assert_eq!(
            String::from_utf8(printed).unwrap(),
            expected,
            "limit {limit}"
        );
    }
}

/// The output of the program itself, for an input on its standard input.
fn output_of_the_program(input: &[u8]) -> Vec<u8> {
    let mut child = Command::new(env!("CARGO_BIN_EXE_reference-decode"))
        .stdin(Stdio::piped())
        .stdout(Stdio::piped())
        .spawn()
        .expect("the program starts");
    let mut stdin = child.stdin.take().unwrap();
    let mut stdout = child.stdout.take().unwrap();
    let mut printed = Vec::new();
    std::thread::scope(|scope| {
        // The program may stop reading at a refused code line; what is left is then not written.
        scope.spawn(move || stdin.write_all(input).is_ok());
        stdout
            .read_to_end(&mut printed)
            .expect("the output is read");
    });
    assert!(child.wait().expect("the program ends").success());
    printed
}

#[test]
fn the_program_prints_what_the_call_answers() {
    assert_eq!(output_of_the_program(b""), b"0500\n");
    let mut generator = Generator::new(50);
    let mut lines = 0;
    for _ in 0..30 {
        let input = sample::program_input(&mut generator, &Size::SMALL, 6);
        let expected = program(&input);
        assert_eq!(output_of_the_program(&input), expected);
        lines += expected.split(|&byte| byte == b'\n').count() - 1;
    }
    assert!(lines > 30);
}
