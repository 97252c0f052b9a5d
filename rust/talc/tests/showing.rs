//! `talc show`: every field whole, and a password only to who asks for it.

#[path = "../../tests/common/mod.rs"]
mod common;
mod process;

use common::bodies::{part, Part};
use process::terminal::Terminal;
use process::*;
use std::path::PathBuf;

const SECRET: &[u8] = "pä\\\u{1b}ss word ".as_bytes();

fn login() -> Vec<Part> {
    let notes = (0..5000).map(|line| format!("line {line}\r\n")).collect::<String>();
    vec![
        part(0x03, b"Lathe 3"),
        part(0x05, (notes + "\n\u{1b}last").as_bytes()),
        part(0x06, SECRET),
        part(0x0a, &1_900_000_000u32.to_le_bytes()),
        part(0x04, b"S\xe4ge"),
        part(0x0d, b""),
        part(0x10, &[0xab, 0xcd]),
        part(0x1b, b"\x01\x02key"),
        part(0xe0, &[0xff; 100]),
        part(0x0d, b"https://a.example"),
    ]
}

fn put(folder: &Folder) -> (PathBuf, PathBuf) {
    (folder.put("a.psafe3", &safe_of(&[&login()])), folder.put("passphrase", PASSPHRASE))
}

/// What is said of each field, in their order.
#[test]
fn every_field_whole() {
    let folder = Folder::new("whole");
    let (file, _) = put(&folder);
    let ended = talc_with(&["show", path(&file), "lathe"]);
    assert_eq!((ended.status, ended.err.as_str()), (0, ""));
    let aside = " ".repeat(29);
    let (start, rest) = ended.out.split_once("\nNotes                        line 0\n").unwrap();
    let uuid = "000000000000000000000000000000ff";
    let lines = format!(
        "record 0\nUUID                         {uuid}\nTitle                        Lathe 3"
    );
    assert_eq!(start, lines);
    let notes: String = (1..5000).map(|line| format!("{aside}line {line}\n")).collect();
    let rest = rest.strip_prefix(&notes).unwrap();
    let hex = "ff".repeat(100);
    let lines = [
        "",
        &format!("{aside}\\u{{1b}}last"),
        "Password                     (hidden)",
        "Password Expiry Time         2030-03-17 17:46:40 UTC",
        "Username                     S\u{fffd}ge",
        &format!("{aside}(BadText: goes wrong at byte 1 (from 0))"),
        "URL",
        "Password Policy              \u{fffd}\u{fffd}",
        &format!("{aside}(BadText: goes wrong at byte 0 (from 0))"),
        "Two-Factor Key               (hidden)",
        &format!("Implementation-specific      (Opaque, in hex) {hex}"),
        "URL                          https://a.example",
    ];
    assert_eq!(rest.lines().collect::<Vec<_>>(), lines);
}

#[test]
fn the_password_to_a_pipe() {
    let folder = Folder::new("to-a-pipe");
    let (file, stored) = put(&folder);
    let ended = talc_with(&["show", path(&file), "0", "--password"]);
    assert_eq!((ended.status, ended.err.as_str()), (0, ""));
    assert_eq!(ended.out.as_bytes(), [SECRET, b"\n"].concat());
    let ended = talc_with(&["show", path(&file), "0", "--reveal"]);
    assert_eq!((ended.status, ended.out.as_str()), (64, ""));
    assert!(ended.err.contains("--password gives the password alone"), "{}", ended.err);
    // At a terminal, before anything is asked.
    let arguments = ["show", path(&file), "0", "--password", "--passphrase-file", path(&stored)];
    let (status, _, shown) = Terminal::talc(&arguments).ends();
    assert_eq!(status, Some(64));
    assert!(shown.contains("give --reveal") && !shown.contains("ss word"), "{shown}");
}

#[test]
fn revealed_at_a_terminal() {
    let folder = Folder::new("revealed");
    let (file, stored) = put(&folder);
    let arguments = ["show", path(&file), "0", "--passphrase-file", path(&stored), "--reveal"];
    let (status, _, shown) = Terminal::talc(&arguments[..5]).ends();
    assert_eq!(status, Some(0));
    assert!(!shown.contains("ss word") && shown.contains("(hidden)"), "{shown}");
    let (status, _, shown) = Terminal::talc(&arguments).ends();
    assert_eq!(status, Some(0));
    assert!(shown.contains("Password                     pä\\\\\\u{1b}ss word \r\n"), "{shown}");
    assert!(
        shown.contains("Two-Factor Key               (Opaque, in hex) 01026b6579\r\n"),
        "{shown}"
    );
    assert!(!shown.contains("(hidden)") && !shown.contains('\u{1b}'), "{shown}");
}

/// A wrong entry, of a safe that can't be read, before anything is asked: there is no terminal.
#[test]
fn wrong_before_asked() {
    let folder = Folder::new("wrong-before");
    let (file, _) = put(&folder);
    for (entry, option) in [("", "--json"), ("a\u{1b}", "--json"), ("0", "--reveal")] {
        let ended = talc(&["show", path(&file), entry, option], b"");
        assert_eq!((ended.status, ended.out.as_str()), (64, ""), "{}", ended.err);
        assert!(!ended.err.contains("no terminal to ask"), "{}", ended.err);
    }
}
