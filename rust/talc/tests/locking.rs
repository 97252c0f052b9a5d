//! One writer at a time: who comes second is told so, and no change is lost.

#[path = "../../tests/common/mod.rs"]
mod common;
mod process;
mod shim;
mod stored;

use common::elsewhere::built;
use process::*;
use shim::shimmed;
use std::fs;
use std::os::fd::AsRawFd;
use std::process::{Child, Stdio};
use std::thread::sleep;
use std::time::Duration;
use stored::*;

extern "C" {
    fn flock(fd: i32, operation: i32) -> i32;
    fn kill(process: i32, signal: i32) -> i32;
}

const SHARED: i32 = 1;
const EXCLUSIVE: i32 = 2;
const CONTINUE: i32 = 18;

#[test]
fn held_by_another() {
    let office = Office::new("locked");
    let new = format!("--new-passphrase-file={}", path(&office.passphrase));
    for operation in [SHARED, EXCLUSIVE] {
        let held = fs::File::open(&office.file).unwrap();
        assert_eq!(unsafe { flock(held.as_raw_fd(), operation) }, 0);
        let file = path(&office.file);
        let commands: [&[&str]; 5] = [
            &["set", file, "0", "title=A"],
            &["add", file, "title=A"],
            &["remove", file, "0"],
            &["passphrase", file, &new],
            &["resave", file, file],
        ];
        for command in commands {
            // Nothing is asked for: without a terminal that would be 64.
            let ended = talc(command, b"");
            assert_eq!((ended.status, ended.out.as_str()), (75, ""), "{}", ended.err);
            assert!(ended.err.contains("another program is writing it"), "{}", ended.err);
        }
        let ended = talc(&["check", file, "--passphrase-stdin"], PASSPHRASE);
        assert_eq!(ended.status, 0, "who reads waits for nobody: {}", ended.err);
    }
    assert!(fs::read(&office.file).unwrap() == safe());
    assert_eq!(office.folder.names(), ["a.psafe3", "passphrase", "password"]);
    office.done("set", &["0", "title=A"]);
}

/// A writer that stops by itself before its first call of that name.
fn stopped(office: &Office, words: &[&str], call: &str) -> Child {
    let settings = [
        ("SHIM_FOLDER", path(&office.folder.0)),
        ("SHIM_ONLY", call),
        ("SHIM_AT", "1"),
        ("SHIM_HOW", "stop"),
    ];
    let mut child = shimmed(words, &settings).spawn().unwrap();
    let stat = format!("/proc/{}/stat", child.id());
    for _ in 0..6000 {
        let state = fs::read_to_string(&stat).unwrap();
        if state.rsplit(')').next().unwrap().trim_start().starts_with('T') {
            return child;
        }
        sleep(Duration::from_millis(10));
    }
    child.kill().and_then(|()| child.wait()).unwrap();
    panic!("it does not stop");
}

fn goes_on(child: Child) -> (Option<i32>, String) {
    assert_eq!(unsafe { kill(child.id() as i32, CONTINUE) }, 0);
    let output = child.wait_with_output().unwrap();
    (output.status.code(), String::from_utf8(output.stderr).unwrap())
}

fn titles(office: &Office) -> Vec<String> {
    let titles = office.sections().into_iter().skip(1).map(|record| {
        let title = record.into_iter().find(|field| field.kind == 0x03).unwrap();
        String::from_utf8(title.data).unwrap()
    });
    titles.collect()
}

/// From before the safe is read until after it is renamed.
#[test]
fn held_for_the_whole_save() {
    for call in ["read", "linkat", "rename"] {
        let office = Office::new(&format!("locked-{call}"));
        let file = path(&office.file);
        let words =
            ["set", file, "1", "title=First", "--passphrase-file", path(&office.passphrase)];
        let first = stopped(&office, &words, call);
        let ended = office.talc("set", &["0", "title=Second"]);
        assert_eq!((ended.status, ended.out.as_str()), (75, ""), "{call}: {}", ended.err);
        assert_eq!(goes_on(first).0, Some(0));
        office.done("set", &["0", "title=Second"]);
        assert_eq!(titles(&office), ["Second", "First"], "{call}");
    }
}

/// Who has opened the file that was replaced before it got the lock takes the new one.
#[test]
fn a_lock_on_a_file_that_was_replaced() {
    let office = Office::new("locked-late");
    let file = path(&office.file);
    let words = ["set", file, "1", "title=Late", "--passphrase-file", path(&office.passphrase)];
    let late = stopped(&office, &words, "flock");
    office.done("set", &["0", "title=Early"]);
    let ended = goes_on(late);
    assert_eq!(ended.0, Some(0), "{}", ended.1);
    assert_eq!(titles(&office), ["Early", "Late"]);
}

/// Of two new safes with one name, one is made.
#[test]
fn a_name_that_is_taken_meanwhile() {
    for call in ["renameat2", "write"] {
        let office = Office::new(&format!("taken-{call}"));
        let new = office.folder.0.join("new.psafe3");
        let option = format!("--new-passphrase-file={}", path(&office.passphrase));
        let words = ["new", path(&new), "--iter", "2048", &option];
        let late = stopped(&office, &words, call);
        assert_eq!(talc(&words, b"").status, 0);
        let made = fs::read(&new).unwrap();
        let (status, err) = goes_on(late);
        assert_eq!(status, Some(73), "{err}");
        assert!(err.contains("is there already"), "{err}");
        assert!(fs::read(&new).unwrap() == made);
        assert_eq!(office.folder.names(), ["a.psafe3", "new.psafe3", "passphrase", "password"]);
    }
}

/// Many at once, each again until it had its turn: every change is there.
#[test]
fn many_writers() {
    const WRITERS: usize = 6;
    let office = Office::new("locked-many");
    let add = |number: usize| {
        let mut command = built(env!("CARGO_BIN_EXE_talc"));
        command.args(["add", path(&office.file), &format!("title=Login {number}")]);
        command.args([&office.password, "--passphrase-file", path(&office.passphrase)]);
        command.stdout(Stdio::null()).stderr(Stdio::null()).spawn().unwrap()
    };
    let mut waiting: Vec<usize> = (0..WRITERS).collect();
    let mut refused = 0;
    while !waiting.is_empty() {
        let children: Vec<(usize, Child)> = waiting.iter().map(|n| (*n, add(*n))).collect();
        waiting = children
            .into_iter()
            .filter_map(|(number, mut child)| match child.wait().unwrap().code() {
                Some(0) => None,
                Some(75) => Some(number),
                other => panic!("{other:?}"),
            })
            .collect();
        refused += waiting.len();
    }
    let mut added = titles(&office).split_off(2);
    added.sort();
    let expected: Vec<String> = (0..WRITERS).map(|number| format!("Login {number}")).collect();
    assert_eq!(added, expected, "{refused} were refused");
    let names = ["a.psafe3", "a.psafe3.bak", "passphrase", "password"];
    assert_eq!(office.folder.names(), names);
}
