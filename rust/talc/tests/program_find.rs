//! `talc find --verbose` as a process: the line that it adds, and that all else is as without it.

#[path = "../../tests/common/mod.rs"]
mod common;
mod process;

use common::elsewhere::built;
use process::*;
use std::fs;
use std::os::unix::process::CommandExt;
use std::path::Path;
use std::process::Stdio;

extern "C" {
    fn close(fd: i32) -> i32;
}

/// Those of the safe's two records, and of none.
const FIRST: &str = "0123456789abcdef30313233343536ff";
const SECOND: &str = "09090909090909090909090909090909";
const NONE: &str = "00000000000000000000000000000000";

/// Without `--verbose` and with it.
fn both(file: &Path, uuid: &str, passphrase: &[u8]) -> [Ended; 2] {
    let arguments = ["find", path(file), uuid, "--passphrase-stdin", "--verbose"];
    [talc(&arguments[..4], passphrase), talc(&arguments, passphrase)]
}

#[test]
fn found_and_none() {
    let folder = Folder::new("verbose");
    let file = folder.put("a.psafe3", &safe());
    for (uuid, status, fields) in [(FIRST, 0, 3), (SECOND, 0, 14), (NONE, 67, 15)] {
        let [quiet, verbose] = both(&file, uuid, PASSPHRASE);
        assert_eq!([quiet.status, verbose.status], [status; 2]);
        assert_eq!(quiet.out, verbose.out);
        assert_eq!(quiet.out.is_empty(), uuid == NONE);
        let line = format!("talc: {}: fields looked at: {fields}\n", file.display());
        assert_eq!(verbose.err, line + &quiet.err);
        assert_eq!(quiet.err.lines().count(), usize::from(uuid == NONE));
    }
}

/// Nothing is said of fields.
#[test]
fn refused() {
    let folder = Folder::new("verbose-refused");
    let mut damaged = safe();
    damaged[160] = 0;
    let cases = [(damaged, PASSPHRASE, 9), (safe(), b"floor 3", 8), (b"none".to_vec(), b"", 1)];
    for (bytes, passphrase, number) in cases {
        let file = folder.put("a.psafe3", &bytes);
        let [quiet, verbose] = both(&file, SECOND, passphrase);
        assert_eq!((verbose.status, verbose.out.as_str()), (number, ""));
        assert_eq!((quiet.status, quiet.err), (number, verbose.err));
    }
}

#[test]
fn with_find_alone() {
    let cases: [&[&str]; 7] = [
        &["check", "f"],
        &["list", "f"],
        &["fields", "f"],
        &["resave", "f", "g"],
        &["replay", "s", "t"],
        &["table", "f", "g"],
        &["rows", "t"],
    ];
    for arguments in cases {
        let ended = talc(&[arguments, &["--verbose"]].concat(), b"");
        assert_eq!((ended.status, ended.out.as_str()), (64, ""), "{arguments:?}");
        assert_eq!(ended.err, "talc: --verbose goes with find alone; try talc --help\n");
    }
    let ended = talc(&["find", "f", NONE, "--verbose=yes"], b"");
    assert_eq!(ended.status, 64);
    assert_eq!(ended.err, "talc: --verbose takes no value; try talc --help\n");
}

#[test]
fn help() {
    let ended = talc(&["--help", "--verbose"], b"");
    assert_eq!(ended.status, 0);
    assert!(ended.out.contains("\n  --verbose               with find: says on standard error"));
}

/// Where standard error can't be written to, or is closed, the run ends as it would, with all its
/// output.
#[test]
fn errors_that_go_nowhere() {
    let folder = Folder::new("verbose-nowhere");
    let file = folder.put("a.psafe3", &safe());
    let stored = folder.put("passphrase", PASSPHRASE);
    for (uuid, status) in [(SECOND, 0), (NONE, 67)] {
        let mut command = built(env!("CARGO_BIN_EXE_talc"));
        command.args(["find", path(&file), uuid, "--passphrase-file", path(&stored)]);
        let quiet = command.output().unwrap();
        command.arg("--verbose");
        let full = fs::OpenOptions::new().write(true).open("/dev/full").unwrap();
        let (reader, writer) = std::io::pipe().unwrap();
        drop(reader);
        for errors in [Stdio::from(full), writer.into()] {
            let output = command.stderr(errors).output().unwrap();
            assert_eq!((output.status.code(), &output.stdout), (Some(status), &quiet.stdout));
        }
        unsafe {
            command.pre_exec(|| {
                close(2);
                Ok(())
            })
        };
        let output = command.output().unwrap();
        assert_eq!((output.status.code(), output.stdout), (Some(status), quiet.stdout));
    }
}
