//! The built program `decode` where its input cannot be read: what was read until then is answered as
//! at the end of the input, and the program ends with status 1.

mod built;

use std::fs::File;
use std::process::{Command, Stdio};

/// A folder opens, and every read of it fails: the input is empty.
#[test]
fn a_folder_is_no_input() {
    let Some(program) = built::program() else {
        return;
    };
    let folder = File::open(".").expect("a folder");
    assert_ended(program.command().stdin(folder), "0500\n");
}

#[test]
fn a_closed_input_is_no_input() {
    let Some(program) = built::program() else {
        return;
    };
    let mut shell = Command::new("sh");
    shell.args(["-c", "exec \"$0\" <&-"]);
    assert_ended(shell.arg(program.path()), "0500\n");
}

/// The program prints this, and says on standard error that a read failed.
fn assert_ended(command: &mut Command, printed: &str) {
    let ended = command
        .stdout(Stdio::piped())
        .stderr(Stdio::piped())
        .output()
        .expect("the program ends");
    assert_eq!(String::from_utf8_lossy(&ended.stdout), printed);
    assert_eq!(ended.status.code(), Some(1), "{}", ended.status);
    assert!(!ended.stderr.is_empty(), "nothing on standard error");
}
