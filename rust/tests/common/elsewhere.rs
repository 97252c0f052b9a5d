//! Programs that are built for x86-64, wherever the tests run.

use std::ffi::OsStr;
use std::process::Command;

/// A program built beside the tests, under the emulator that tools/elsewhere names, if it does.
pub fn built(program: impl AsRef<OsStr>) -> Command {
    match std::env::var_os("TALC_RUNNER") {
        None => Command::new(program),
        Some(runner) => {
            let mut command = Command::new(runner);
            command.arg(program);
            command
        }
    }
}

/// Whether this machine has that program. Under the emulator, what is not there starts, and fails.
pub fn there(program: &str) -> bool {
    Command::new(program).arg("--version").output().is_ok_and(|output| output.status.success())
}
