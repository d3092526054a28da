//! The built program.

use std::env;
use std::io::{self, Read, Write};
use std::path::{Path, PathBuf};
use std::process::{Command, Stdio};
use std::thread;

/// Names the program when it is not where the repository builds it. A relative path starts at this
/// package.
const PATH_VARIABLE: &str = "PETSIVOLA_DECODE";

/// Where the repository builds it, from this package.
const BUILT_HERE: &str = "../../target/bin/decode";

/// When this is 1, a program that has not been built is no error.
const ALLOW_VARIABLE: &str = "PETSIVOLA_ALLOW_MISSING";

/// The built program `decode`.
pub struct Program {
    path: PathBuf,
}

impl Program {
    /// The program at the path that `PETSIVOLA_DECODE` names, or else where the repository builds
    /// it. None, with a notice on standard error, when it has not been built and
    /// `PETSIVOLA_ALLOW_MISSING` is 1.
    ///
    /// # Errors
    ///
    /// When it has not been built and may not be missing.
    pub fn find() -> Result<Option<Program>, String> {
        let path = env::var_os(PATH_VARIABLE).unwrap_or_else(|| BUILT_HERE.into());
        let path = Path::new(env!("CARGO_MANIFEST_DIR")).join(path);
        if path.is_file() {
            return Ok(Some(Program { path }));
        }
        let missing = format!("the program decode is not built: no {}", path.display());
        if env::var_os(ALLOW_VARIABLE).is_some_and(|value| value == "1") {
            // Not `eprintln!`: a test that passes would keep it back.
            let _ = writeln!(io::stderr().lock(), "NOT COMPARED: {missing}");
            return Ok(None);
        }
        Err(format!("{missing} ({ALLOW_VARIABLE}=1 lets it be missing)"))
    }

    /// Where the program is.
    pub fn path(&self) -> &Path {
        &self.path
    }

    /// A command that runs the program.
    pub fn command(&self) -> Command {
        Command::new(&self.path)
    }

    /// What the program prints on this input. Each read of the input becomes one write to the
    /// program.
    ///
    /// # Errors
    ///
    /// When the program cannot be run, ends by a signal or another status than 0, or writes to
    /// standard error.
    pub fn output(&self, mut input: impl Read + Send) -> io::Result<Vec<u8>> {
        let mut child = self
            .command()
            .stdin(Stdio::piped())
            .stdout(Stdio::piped())
            .stderr(Stdio::piped())
            .spawn()?;
        let stdin = child.stdin.take();
        // Written beside, since the program prints before it has read all.
        let (written, output) = thread::scope(|scope| {
            let writer = scope.spawn(move || match stdin {
                Some(mut stdin) => write_all(&mut input, &mut stdin),
                None => Ok(()),
            });
            let output = child.wait_with_output();
            (writer.join(), output)
        });
        written.map_err(|_| io::Error::other("the writer panicked"))??;
        let output = output?;
        if !output.status.success() || !output.stderr.is_empty() {
            return Err(io::Error::other(format!(
                "ended with {}, standard error '{}'",
                output.status,
                String::from_utf8_lossy(&output.stderr)
            )));
        }
        Ok(output.stdout)
    }
}

/// Writes the input, read by read. A program that ends before it has read all closes its input,
/// which is no error: "a refused code line ends the program".
fn write_all(input: &mut impl Read, output: &mut impl Write) -> io::Result<()> {
    let mut piece = vec![0; 1 << 16];
    loop {
        let count = input.read(&mut piece)?;
        if count == 0 {
            return Ok(());
        }
        match output.write_all(&piece[..count]) {
            Err(error) if error.kind() == io::ErrorKind::BrokenPipe => return Ok(()),
            written => written?,
        }
    }
}
