//! `talc` with the shim between it and the C library, which shim.c describes.
#![allow(dead_code)]

use crate::common::compiled::gcc;
use crate::process::*;
use std::fs;
use std::path::{Path, PathBuf};
use std::process::{Command, Stdio};
use std::sync::OnceLock;

/// The shim, compiled once for this file of tests.
fn shim() -> &'static Path {
    static SHIM: OnceLock<PathBuf> = OnceLock::new();
    SHIM.get_or_init(|| {
        let name = format!("shim-{}.so", std::process::id());
        let shim = Path::new(env!("CARGO_TARGET_TMPDIR")).join(name);
        let source = Path::new(env!("CARGO_MANIFEST_DIR")).join("tests/shim/shim.c");
        let options = ["-Wall", "-Wextra", "-Werror", "-O2", "-shared", "-fPIC"];
        let status = gcc().args(options).arg(source).arg("-o").arg(&shim).arg("-ldl").status();
        assert!(status.expect("gcc").success(), "shim.c compiles");
        shim
    })
}

/// talc under the shim. An emulator hands the shim on, and takes none itself.
pub fn shimmed(arguments: &[&str], settings: &[(&str, &str)]) -> Command {
    let program = env!("CARGO_BIN_EXE_talc");
    let mut command = match std::env::var_os("TALC_RUNNER") {
        None => {
            let mut command = Command::new(program);
            command.env("LD_PRELOAD", shim());
            command
        }
        Some(runner) => {
            let mut command = Command::new(runner);
            command.arg("-E").arg(format!("LD_PRELOAD={}", path(shim()))).arg(program);
            command
        }
    };
    command.args(arguments).envs(settings.iter().copied());
    command.stdin(Stdio::null()).stdout(Stdio::piped()).stderr(Stdio::piped());
    command
}

/// How it ended; none: it was killed.
pub struct Shimmed {
    pub status: Option<i32>,
    pub out: String,
    pub err: String,
}

pub fn run(arguments: &[&str], settings: &[(&str, &str)]) -> Shimmed {
    let output = shimmed(arguments, settings).output().unwrap();
    let text = |bytes| String::from_utf8(bytes).unwrap();
    let (out, err): (String, String) = (text(output.stdout), text(output.stderr));
    // On a busy machine a line tells that something takes long.
    let err: String =
        err.split_inclusive('\n').filter(|l| !l.contains("takes more than")).collect();
    assert!(!err.contains("panicked") && !err.contains("qemu"), "{err}");
    Shimmed { status: output.status.code(), out, err }
}

/// The calls on files of the folder that a run makes, in order: their names, and the file's name
/// with `*` for what is random.
pub fn calls(folder: &Folder, secrets: &Folder, arguments: &[&str]) -> Vec<String> {
    let log = secrets.0.join("log");
    let _ = fs::remove_file(&log);
    let ended = run(arguments, &[("SHIM_FOLDER", path(&folder.0)), ("SHIM_LOG", path(&log))]);
    assert_eq!(ended.status, Some(0), "{}", ended.err);
    let log = fs::read_to_string(log).unwrap();
    log.lines().map(|line| masked(&line.replace(path(&folder.0), ""))).collect()
}

fn masked(line: &str) -> String {
    match line.strip_suffix(".new") {
        Some(line) => format!("{}*.new", &line[..line.len() - 16]),
        None => line.to_string(),
    }
}
