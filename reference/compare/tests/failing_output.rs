//! The built program `decode` where its output takes no more: a reader that goes away, and a reader
//! that is slow behind an output that does not wait. The program ends at the first write that fails.
//! So it ends, with status 1, and what was printed is the start of what the reference decoder's
//! program prints: no line is missing before a printed one.

mod built;
mod numbered;

use std::fs::{File, OpenOptions};
use std::io::{self, PipeReader, Read, Write};
use std::os::fd::{AsRawFd, OwnedFd};
use std::os::unix::fs::OpenOptionsExt;
use std::os::unix::net::UnixStream;
use std::process::{Child, Command, ExitStatus, Stdio};
use std::sync::mpsc;
use std::thread;
use std::time::{Duration, Instant};

use compare::programs::Program;

/// How long the program may take to end, and a test to come to its next step.
const PATIENCE: Duration = Duration::from_secs(20);

#[test]
fn a_reader_goes_away() {
    let Some(program) = built::program() else {
        return;
    };
    reader_goes_away(program.command());
}

/// As under a parent that ignores the signal of a broken pipe, which many services do: the write
/// fails, and no signal ends the program.
#[test]
fn a_reader_goes_away_and_no_signal_comes() {
    let Some(program) = built::program() else {
        return;
    };
    let mut shell = Command::new("sh");
    shell.args(["-c", "trap '' PIPE; exec \"$0\""]);
    shell.arg(program.path());
    reader_goes_away(shell);
}

/// Reads some lines and closes the pipe; the input does not end before the program does.
fn reader_goes_away(mut command: Command) {
    let input = numbered::input(0..20_000);
    let expected = reference_decoder::program(&input);
    let mut child = command
        .stdin(Stdio::piped())
        .stdout(Stdio::piped())
        .stderr(Stdio::null())
        .spawn()
        .expect("the program starts");
    let mut stdin = child.stdin.take().expect("a piped input");
    let mut stdout = child.stdout.take().expect("a piped output");
    let (printed, ended) = thread::scope(|scope| {
        scope.spawn(move || while stdin.write_all(&input).is_ok() {});
        let mut printed = vec![0; 10_000];
        let read = stdout.read_exact(&mut printed);
        drop(stdout);
        (read.map(|()| printed), ended_in_time(&mut child))
    });
    assert_start(&printed.expect("the program prints"), &expected);
    assert_failed(ended.expect("the program goes on without a reader"));
}

#[test]
fn a_full_pipe_does_not_wait() {
    let Some(program) = built::program() else {
        return;
    };
    let (reader, writer) = pipe().expect("a pipe");
    full_output_does_not_wait(&program, reader, writer.into());
}

#[test]
fn a_full_socket_does_not_wait() {
    let Some(program) = built::program() else {
        return;
    };
    let (reader, writer) = UnixStream::pair().expect("a pair of sockets");
    writer.set_nonblocking(true).expect("a socket");
    full_output_does_not_wait(&program, reader, writer.into());
}

/// A pipe with a writing end that does not wait. An open file gets this flag when it is opened, so
/// the end is opened again by its name in /proc.
fn pipe() -> io::Result<(PipeReader, File)> {
    const O_NONBLOCK: i32 = 0o4000;
    let (reader, writer) = io::pipe()?;
    let name = format!("/proc/self/fd/{}", writer.as_raw_fd());
    let mut options = OpenOptions::new();
    let writer = options.write(true).custom_flags(O_NONBLOCK).open(name)?;
    Ok((reader, writer))
}

/// Writes many frames while nobody reads, then reads, then writes more frames.
fn full_output_does_not_wait(program: &Program, mut reader: impl Read + Send, output: OwnedFd) {
    let input = numbered::input(0..u16::MAX);
    let expected = reference_decoder::program(&input);
    let (first, rest) = input.split_at(input.len() / 10 * 9);
    let mut child = start(program, output);
    let mut stdin = child.stdin.take().expect("a piped input");
    let (full, is_full) = mpsc::channel();
    let (room, is_room) = mpsc::channel();
    let (printed, ended) = thread::scope(|scope| {
        // A program that has ended takes no more input, and the other side may not wait any more.
        scope.spawn(move || {
            let _ = stdin.write_all(first);
            let _ = full.send(());
            let _ = is_room.recv_timeout(PATIENCE);
            let _ = stdin.write_all(rest);
        });
        let reading = scope.spawn(move || -> io::Result<Vec<u8>> {
            let _ = is_full.recv_timeout(PATIENCE);
            let mut printed = vec![0; 1 << 16];
            let count = reader.read(&mut printed)?;
            printed.truncate(count);
            let _ = room.send(());
            reader.read_to_end(&mut printed)?;
            Ok(printed)
        });
        let ended = ended_in_time(&mut child);
        (reading.join().expect("the reader reads"), ended)
    });
    assert_start(&printed.expect("the program prints"), &expected);
    assert_failed(ended.expect("the program does not end"));
}

/// The program with this output, which no one else keeps open.
fn start(program: &Program, output: OwnedFd) -> Child {
    program
        .command()
        .stdin(Stdio::piped())
        .stdout(output)
        .stderr(Stdio::null())
        .spawn()
        .expect("the program starts")
}

/// How the program ends, if it does in time; it is stopped if not.
fn ended_in_time(child: &mut Child) -> Option<ExitStatus> {
    let start = Instant::now();
    while start.elapsed() < PATIENCE {
        let ended = child.try_wait().expect("a child to wait for");
        if ended.is_some() {
            return ended;
        }
        thread::sleep(Duration::from_millis(5));
    }
    child.kill().expect("a child to stop");
    child.wait().expect("a child to wait for");
    None
}

/// The program itself says that a write failed: no signal ended it.
fn assert_failed(status: ExitStatus) {
    assert_eq!(status.code(), Some(1), "the program ends with {status}");
}

/// Something was printed, and it is the start of what is expected.
fn assert_start(printed: &[u8], expected: &[u8]) {
    assert!(!printed.is_empty(), "nothing was printed");
    let lines = |output: &[u8]| -> Vec<String> {
        let text = String::from_utf8_lossy(output);
        text.split_inclusive('\n').map(String::from).collect()
    };
    if !expected.starts_with(printed) {
        let (printed, expected) = (lines(printed), lines(expected));
        let place = (0..printed.len()).find(|&place| printed.get(place) != expected.get(place));
        let place = place.expect("a line that differs");
        panic!(
            "line {place} of {} is {:?}, not {:?}",
            printed.len(),
            printed[place],
            expected.get(place)
        );
    }
}
