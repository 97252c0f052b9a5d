//! Standard input and output: closed, full, or with a safe in it.

#[path = "../../tests/common/mod.rs"]
mod common;
mod process;

use common::elsewhere::built;
use process::*;
use std::fs;
use std::os::unix::process::CommandExt;
use std::path::Path;
use std::process::{Command, Output};

extern "C" {
    fn close(fd: i32) -> i32;
}

fn closed(command: &mut Command, fd: i32) -> Output {
    unsafe {
        command.pre_exec(move || {
            close(fd);
            Ok(())
        })
    };
    command.output().unwrap()
}

fn list(file: &Path, passphrase: &Path) -> Command {
    let mut command = built(env!("CARGO_BIN_EXE_talc"));
    command.args(["list", path(file), "--passphrase-file", path(passphrase)]);
    command
}

#[test]
fn a_closed_output() {
    let folder = Folder::new("closed-output");
    let (file, stored) = (folder.put("a.psafe3", &safe()), folder.put("passphrase", PASSPHRASE));
    let output = closed(&mut list(&file, &stored), 1);
    let said = String::from_utf8(output.stderr).unwrap();
    assert_eq!(
        (output.status.code(), said.as_str()),
        (Some(74), "talc: standard output: it is closed\n")
    );
    let only_read = fs::File::open("/dev/null").unwrap();
    let output = list(&file, &stored).stdout(only_read).output().unwrap();
    assert_eq!(output.status.code(), Some(74));
}

/// Nothing is taken for a passphrase or a safe; a safe with an empty passphrase stays closed.
#[test]
fn a_closed_input() {
    let folder = Folder::new("closed-input");
    let file = folder.put("a.psafe3", &safe());
    for arguments in [["list", path(&file), "--passphrase-stdin"], ["check", "-", "--ceiling=5000"]]
    {
        let output = closed(built(env!("CARGO_BIN_EXE_talc")).args(arguments), 0);
        let said = String::from_utf8(output.stderr).unwrap();
        assert_eq!(output.status.code(), Some(66), "{said}");
        assert!(said.ends_with("standard input: it is closed\n"), "{said}");
    }
}

#[test]
fn a_safe_from_input() {
    let folder = Folder::new("piped");
    let (file, stored) = (folder.put("a.psafe3", &safe()), folder.put("passphrase", PASSPHRASE));
    let out = folder.0.join("t");
    let cases: [&[&str]; 6] = [
        &["check", "-"],
        &["list", "-"],
        &["fields", "-"],
        &["find", "-", "09090909090909090909090909090909"],
        &["show", "-", "1"],
        &["table", "-", path(&out), "--now=5"],
    ];
    for arguments in cases {
        let with = [arguments, &["--passphrase-file", path(&stored)]].concat();
        let piped = talc(&with, &safe());
        let named: Vec<&str> =
            with.iter().map(|w| if *w == "-" { path(&file) } else { w }).collect();
        let named = talc(&named, b"");
        assert_eq!((piped.status, named.status), (0, 0), "{}", piped.err);
        assert_eq!(
            piped.out.replace("-: ", ""),
            named.out.replace(&format!("{}: ", path(&file)), "")
        );
    }
    assert_eq!(talc(&["check", "-"], &safe()[..300]).status, 1);
    assert_eq!(talc(&["check", "-"], b"").status, 1);
    let cut = safe();
    assert_eq!(talc(&["list", "-"], &cut[..cut.len() - 16]).status, 7);
}
