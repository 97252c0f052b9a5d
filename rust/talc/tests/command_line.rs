//! The command line: what is wrong is said, and what is typed is written out.

#[path = "../../tests/common/mod.rs"]
mod common;
mod process;

use process::*;
use std::ffi::OsStr;
use std::os::unix::ffi::OsStrExt;

/// The one line that is said of wrong arguments.
fn wrong(arguments: &[&str]) -> String {
    let ended = talc(arguments, b"");
    assert_eq!((ended.status, ended.out.as_str()), (64, ""), "{arguments:?}: {}", ended.err);
    let line = ended.err.strip_prefix("talc: ").and_then(|line| line.strip_suffix("\n")).unwrap();
    assert!(!line.contains(char::is_control), "{line:?}");
    line.strip_suffix("; try talc --help").unwrap().to_string()
}

#[test]
fn an_option_given_twice() {
    let cases: [&[&str]; 5] = [
        &["check", "f", "--ceiling", "5", "--ceiling=6"],
        &["check", "--passphrase-stdin", "f", "--passphrase-stdin"],
        &["list", "f", "--state", "s", "--state", "s"],
        &["find", "f", "--verbose", "lathe", "--verbose"],
        &["check", "f", "--passphrase-file", "a", "--passphrase-file", "b"],
    ];
    for arguments in cases {
        assert!(wrong(arguments).ends_with(" is given twice"), "{arguments:?}");
    }
}

/// Options stand anywhere before `--`; after it nothing is one, and who takes it for one is told.
#[test]
fn behind_the_two_hyphens() {
    let folder = Folder::new("hyphens");
    let file = folder.put("a.psafe3", &safe());
    let orders: [&[&str]; 4] = [
        &["--passphrase-stdin", "list", path(&file)],
        &["list", "--passphrase-stdin", path(&file)],
        &["list", path(&file), "--passphrase-stdin"],
        &["list", "--passphrase-stdin", "--", path(&file)],
    ];
    for arguments in orders {
        assert_eq!(talc(arguments, PASSPHRASE).status, 0, "{arguments:?}");
    }
    let line = wrong(&["list", "--", "f", "--passphrase-stdin"]);
    assert_eq!(line, "list needs FILE: --passphrase-stdin stands behind --, and is no option");
    assert_eq!(wrong(&["list", "f", "g"]), "list needs FILE");
    let line = wrong(&["show", "f", "lathe", "3"]);
    assert_eq!(line, "show needs FILE and ENTRY: put an entry of several words in quotation marks");
    assert_eq!(talc(&["list", "--passphrase-stdin", "--", "--json"], b"").status, 66);
}

/// Whatever is typed, one line comes, with no raw control character in it.
#[test]
fn names_that_would_steer() {
    let folder = Folder::new("steering");
    let name = "a\u{1b}[2J\n\u{202e}b.psafe3";
    let shown = "a\\u{1b}[2J\\n\\u{202e}b.psafe3";
    let file = folder.put(name, &safe());
    let cases: [(&[&str], i32); 4] = [
        (&["check", path(&file), "--passphrase-stdin"], 0),
        (&["check", path(&file), "--ceiling", "0"], 6),
        (&["show", path(&file), "nothing", "--passphrase-stdin"], 67),
        (&["list", path(&file), "--state", path(&file)], 19),
    ];
    for (arguments, status) in cases {
        let ended = talc(arguments, PASSPHRASE);
        assert_eq!(ended.status, status, "{}", ended.err);
        let said = ended.out + &ended.err;
        assert!(said.contains(shown), "{said:?}");
        assert!(!said.trim_end().contains(char::is_control), "{said:?}");
    }
    let missing = path(&file).replace("b.psafe3", "c.psafe3");
    let ended = talc(&["check", &missing, "--passphrase-file", &missing], b"");
    assert_eq!((ended.status, ended.err.lines().count()), (66, 1));
    assert!(ended.err.contains("\\u{1b}") && !ended.err.contains('\u{1b}'), "{:?}", ended.err);
    assert_eq!(wrong(&["a\u{1b}b"]), "there is no command a\\u{1b}b");
    assert_eq!(wrong(&["check", "f", "--a\nb"]), "there is no option --a\\nb");
    assert_eq!(wrong(&["show", "f", "a\tb"]), "the entry \"a\\tb\" has control characters");
}

/// Nothing, blanks, and control characters mean no entry.
#[test]
fn words_that_mean_nothing() {
    for word in ["", " ", "a\u{1b}", "a\nb"] {
        wrong(&["show", "f", word]);
    }
}

#[test]
fn words_that_are_not_utf8() {
    let mut command = common::elsewhere::built(env!("CARGO_BIN_EXE_talc"));
    let output = command.args(["show", "f"]).arg(OsStr::from_bytes(b"S\xe4ge")).output().unwrap();
    assert_eq!(output.status.code(), Some(64));
    let line = "talc: the entry \"S\u{fffd}ge\" is not UTF-8; try talc --help\n";
    assert_eq!(String::from_utf8(output.stderr).unwrap(), line);
}

/// Refused before anything is read or asked for.
#[test]
fn options_that_do_not_go_together() {
    let cases: [(&[&str], &str); 8] = [
        (&["list", "f", "--json", "--raw"], "--json and --raw do not go together"),
        (
            &["show", "f", "e", "--password", "--reveal"],
            "--password and --reveal do not go together",
        ),
        (
            &["show", "f", "e", "--password", "--json"],
            "--password and --json do not go together: take --reveal",
        ),
        (
            &["find", "f", "lathe", "--json"],
            "--json goes with check, list, fields, show and rows alone",
        ),
        (&["show", "f", "lathe", "--verbose"], "--verbose goes with find alone"),
        (&["rows", "t", "--ceiling", "5"], "--ceiling does not go with rows"),
        (
            &["list", "-", "--passphrase-stdin"],
            "standard input can't be both the safe and the passphrase",
        ),
        (
            &["resave", "-", "g"],
            "this command reads no standard input: a file of the name - is ./-",
        ),
    ];
    for (arguments, line) in cases {
        assert_eq!(wrong(arguments), line);
    }
}
