//! Texts as they are shown: backslashes, what is raw, what is wide, what is damaged.

#[path = "../../tests/common/mod.rs"]
mod common;
mod process;

use common::bodies::part;
use process::terminal::Terminal;
use process::*;
use std::process::Stdio;

const TITLE: u8 = 0x03;
const USER: u8 = 0x04;

#[test]
fn backslashes() {
    let folder = Folder::new("backslashes");
    let cases: [(&[u8], &str); 5] = [
        (b"OFFICE\\nina", "OFFICE\\\\nina"),
        (b"\\\\server\\tools\\", "\\\\\\\\server\\\\tools\\\\"),
        (b"a\tb", "a\\tb"),
        (b"a\\tb", "a\\\\tb"),
        (b"a\\\tb", "a\\\\\\tb"),
    ];
    for (user, shown) in cases {
        let file = folder.put("a.psafe3", &safe_of(&[&[part(TITLE, b"Lathe"), part(USER, user)]]));
        let ended = talc_with(&["list", path(&file)]);
        assert_eq!((ended.status, ended.out), (0, format!("Lathe\t{shown}\t\t\n")));
        let ended = talc_with(&["list", path(&file), "--raw"]);
        let raw = String::from_utf8(user.to_vec()).unwrap();
        assert_eq!((ended.status, ended.out), (0, format!("Lathe\t{raw}\t\t\n")));
    }
}

/// Damaged text is marked where logins are listed, and raw it goes out byte for byte.
#[test]
fn damaged_texts() {
    let folder = Folder::new("damaged-texts");
    let file =
        folder.put("a.psafe3", &safe_of(&[&[part(TITLE, b"S\xe4ge"), part(USER, b"nina\0")]]));
    let title = "S\u{fffd}ge (BadText: goes wrong at byte 1 (from 0))";
    let user = "nina\\u{0} (BadText: goes wrong at byte 4 (from 0))";
    let list = talc_with(&["list", path(&file)]);
    assert_eq!((list.status, list.out), (0, format!("{title}\t{user}\t\t\n")));
    let stored = folder.put("passphrase", PASSPHRASE);
    let mut command = common::elsewhere::built(env!("CARGO_BIN_EXE_talc"));
    command.args(["list", path(&file), "--raw", "--passphrase-file", path(&stored)]);
    let output = command.stdout(Stdio::piped()).output().unwrap();
    assert_eq!(output.stdout, b"S\xe4ge\tnina\0\t\t\n");
}

/// At a terminal the second column begins in the same place, whatever stands in the first.
#[test]
fn wide_characters() {
    let folder = Folder::new("wide");
    let titles = ["Lathe", "旋盤 3", "Sa\u{308}ge", "🔑 key", "한글"];
    let logins = titles.map(|title| [part(TITLE, title.as_bytes()), part(USER, b"x")]);
    let logins: Vec<&[common::bodies::Part]> = logins.iter().map(|login| &login[..]).collect();
    let file = folder.put("a.psafe3", &safe_of(&logins));
    let stored = folder.put("passphrase", PASSPHRASE);
    let arguments = ["list", path(&file), "--passphrase-file", path(&stored)];
    let (status, _, shown) = Terminal::talc(&arguments).ends();
    let lines = "Lathe   x\r\n旋盤 3  x\r\nSa\u{308}ge    x\r\n🔑 key  x\r\n한글    x\r\n";
    assert_eq!((status, shown.as_str()), (Some(0), lines));
    let raw = [&arguments[..], &["--raw"]].concat();
    let (status, _, shown) = Terminal::talc(&raw).ends();
    assert_eq!(status, Some(64), "{shown}");
    assert!(shown.contains("--raw is for a pipe or a file"), "{shown}");
}

/// Nothing of a hidden field tells how long it is.
#[test]
fn hidden_lengths() {
    let folder = Folder::new("hidden-lengths");
    let lines = |length: usize| {
        let hidden = [0x06, 0x0f, 0x1b, 0x1c, 0x1d, 0x1e, 0x1f, 0x20];
        let fields = hidden.map(|kind| part(kind, &vec![b'x'; length]));
        let login = [&[part(TITLE, b"Lathe")], &fields[..]].concat();
        let file = folder.put("a.psafe3", &safe_of(&[&login]));
        let ended = talc_with(&["fields", path(&file)]);
        assert_eq!(ended.status, 0, "{}", ended.err);
        let json = talc_with(&["fields", path(&file), "--json"]);
        assert_eq!(ended.out.matches("(hidden)").count(), hidden.len());
        ended.out + &json.out
    };
    // In one block each, so that the places are the same.
    assert_eq!(lines(3), lines(11));
}
