//! C programs, compiled for x86-64 with every warning an error, and run.

use super::elsewhere::built;
use std::collections::BTreeSet;
use std::path::{Path, PathBuf};
use std::process::Command;
use std::sync::{Mutex, PoisonError};

pub const C99: &[&str] = &["-std=c99", "-O2"];
pub const CPP: &[&str] = &["-std=c++11", "-O2", "-x", "c++"];

/// The project's root.
pub fn root() -> PathBuf {
    Path::new(env!("CARGO_MANIFEST_DIR")).join("..")
}

/// gcc, or the one for x86-64 that tools/elsewhere names.
pub fn gcc() -> Command {
    Command::new(std::env::var_os("TALC_GCC").unwrap_or("gcc".into()))
}

/// Whether gcc has its compiler for C++, which the rest does not need.
fn has_cpp() -> bool {
    let found = gcc().arg("-print-prog-name=cc1plus").output().expect("gcc").stdout;
    // Without one, gcc answers the bare name.
    String::from_utf8(found).unwrap().contains('/')
}

/// C99, and C++ where gcc has it.
pub fn languages() -> Vec<&'static [&'static str]> {
    if has_cpp() {
        vec![C99, CPP]
    } else {
        vec![C99]
    }
}

/// The program of that source, which stands at the root, linked with the archive. Compiled once: what
/// one test runs, another must not write.
pub fn compiled(options: &[&str], source: &str) -> PathBuf {
    static MADE: Mutex<BTreeSet<PathBuf>> = Mutex::new(BTreeSet::new());
    let name: String = [&[source], options].concat().join("-").replace(['/', '='], "-");
    let name = format!("{name}-{}", std::process::id());
    let program = Path::new(env!("CARGO_TARGET_TMPDIR")).join(name);
    let mut made = MADE.lock().unwrap_or_else(PoisonError::into_inner);
    if made.contains(&program) {
        return program;
    }
    let status = gcc()
        .current_dir(root())
        .args(["-Wall", "-Wextra", "-Wpedantic", "-Werror", "-Iinclude"])
        .args(options)
        .args([source, "-x", "none", "target/staticlib/libtalcfeather.a", "-o"])
        .arg(&program)
        .status();
    assert!(status.expect("gcc").success(), "{source} compiles");
    made.insert(program.clone());
    program
}

/// Its exit status, and what it said.
pub fn run(program: &Path, arguments: &[&str]) -> (i32, String) {
    let output = built(program).current_dir(root()).args(arguments).output().unwrap();
    (output.status.code().expect("no signal"), String::from_utf8(output.stdout).unwrap())
}
