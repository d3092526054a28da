//! The built program in a test.

use compare::programs::Program;

/// The program; none where it has not been built and may be missing.
pub fn program() -> Option<Program> {
    match Program::find() {
        Ok(program) => program,
        Err(words) => panic!("{words}"),
    }
}
