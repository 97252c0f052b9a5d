//! What add, set, remove, new and passphrase refuse before anything is asked, stretched or written.

#[path = "../../tests/common/mod.rs"]
mod common;
mod process;
mod stored;

use common::elsewhere::built;
use process::terminal::Terminal;
use process::*;
use std::ffi::OsStr;
use std::fs;
use std::os::unix::ffi::OsStrExt;
use std::os::unix::process::CommandExt;
use stored::*;

/// Each is told in a line and is 64; nothing was asked, and nothing written.
fn refused(office: &Office, words: &[&str], told: &str) {
    let before = (fs::read(&office.file).unwrap(), office.folder.names());
    let ended = talc(&[&words[..1], &[path(&office.file)], &words[1..]].concat(), b"");
    assert_eq!((ended.status, ended.out.as_str()), (64, ""), "{words:?}: {}", ended.err);
    // Without a terminal, to ask for anything would be 64 too, with other words.
    assert!(ended.err.contains(told), "{words:?}: {}", ended.err);
    assert_eq!(ended.err.lines().count(), 1, "{}", ended.err);
    assert!((fs::read(&office.file).unwrap(), office.folder.names()) == before);
}

#[test]
fn fields() {
    let office = Office::new("bad-fields");
    let cases = [
        ("title=", "title is empty"),
        ("title= ", "title is empty"),
        ("title", "title needs a value"),
        ("password=x", "others can see"),
        ("password=", "others can see"),
        ("Title=x", "there is no field \"Title\""),
        ("colour=red", "there is no field \"colour\""),
        ("=x", "there is no field \"\""),
        ("title=a\u{1b}[2J", "title has a control character at byte 1"),
        ("user=a\nb", "user has a control character at byte 1"),
        ("group=Floor\u{7f}", "group has a control character at byte 5"),
        ("notes=a\tb", "notes has a control character at byte 1"),
        ("notes=a\r\nb", "notes has a control character at byte 1"),
        ("url=\u{85}", "url has a control character at byte 0"),
        ("title=\u{feff}Lathe", "title goes wrong at byte 0 (from 0), a byte order mark"),
        ("expires=tomorrow", "expires: \"tomorrow\" is no day"),
        ("expires=2026-02-29", "is no day"),
        ("expires=1970-01-01", "is no day"),
        ("expires=2106-02-08", "is no day"),
        ("expires=30.06.2027", "is no day"),
    ];
    for (field, told) in cases {
        refused(&office, &["set", "0", field], told);
        refused(&office, &["set", "0", "email=x", field], told);
        refused(
            &office,
            &["add", "title=x", field],
            if field.starts_with("title") { "title" } else { told },
        );
        refused(&office, &["add", field], told);
    }
    refused(&office, &["set", "0", "user=a", "user=b"], "user is given twice");
    refused(&office, &["set", "0", "password", "password"], "password is given twice");
    refused(&office, &["add", "user=x"], "add needs a title");
    refused(&office, &["set", "0"], "set needs");
    refused(&office, &["add"], "add needs");
    let ended = talc(&["set", path(&office.file), "0", "password=hunter2"], b"");
    assert!(!ended.err.contains("hunter2"), "{}", ended.err);
}

#[test]
fn not_utf_8() {
    let office = Office::new("bad-bytes");
    for (word, status) in
        [(&b"title=S\xe4ge"[..], 64), (b"t\xe4=x", 64), (b"user=\xed\xa0\x80", 64)]
    {
        let mut command = built(env!("CARGO_BIN_EXE_talc"));
        command.args(["set", path(&office.file), "0"]).arg(OsStr::from_bytes(word));
        unsafe {
            command.pre_exec(|| {
                if setsid() < 0 {
                    Err(std::io::Error::last_os_error())
                } else {
                    Ok(())
                }
            })
        };
        let output = command.output().unwrap();
        let err = String::from_utf8(output.stderr).unwrap();
        assert_eq!(output.status.code(), Some(status), "{err}");
        assert!(!err.contains("terminal"), "{err}");
    }
    assert!(fs::read(&office.file).unwrap() == safe());
}

#[test]
fn options() {
    let office = Office::new("bad-options");
    let cases = [
        ("set 0 title=x --password-file f", "--password-file goes with password"),
        ("set 0 title=x --password-stdin", "--password-stdin goes with password"),
        ("set 0 password --password-stdin --password-file f", "one place only"),
        ("set 0 password --password-stdin --passphrase-stdin", "one secret only"),
        ("add title=x --password-stdin --passphrase-stdin", "one secret only"),
        ("remove 0 --password-stdin", "--password-stdin"),
        ("set 0 title=x --iter 5000", "--iter"),
        ("set 0 title=x --now later", "--now"),
        ("set 0 title=x --now 4294967296", "--now"),
        ("passphrase --iter 2047", "--iter needs a number from 2048"),
        ("remove 0 1", "remove needs"),
        ("check --no-backup", "--no-backup"),
        ("new --no-backup", "--no-backup"),
    ];
    for (words, told) in cases {
        refused(&office, &words.split(' ').collect::<Vec<_>>(), told);
    }
}

/// Secrets from files are judged before the passphrase is asked for.
#[test]
fn secrets() {
    let office = Office::new("bad-secrets");
    let cases: [(&[u8], &str, &str); 8] = [
        (b"", "is empty", "is empty"),
        (b"\n", "is empty", "is empty"),
        (b"a\r\n", "ends in a carriage return", "ends in a carriage return"),
        (b"\xef\xbb\xbfa", "starts with a byte order mark", "starts with a byte order mark"),
        (b"a\nb\n", "control characters", "control characters"),
        (b"a\0", "control characters", "control characters"),
        (b"S\xe4ge", "the password is not UTF-8", "no terminal"),
        (&[b'x'; 1025], "no terminal", "the new passphrase is over 1,024 bytes"),
    ];
    for (bytes, password, passphrase) in cases {
        let file = office.folder.put("secret", bytes);
        let option = format!("--password-file={}", path(&file));
        refused(&office, &["set", "0", "password", &option], password);
        refused(&office, &["add", "title=x", &option], password);
        let option = format!("--new-passphrase-file={}", path(&file));
        refused(&office, &["passphrase", &option], passphrase);
        let new = office.folder.0.join("new.psafe3");
        if passphrase != "no terminal" {
            let ended = talc(&["new", path(&new), &option], b"");
            assert_eq!(ended.status, 64);
            assert!(ended.err.contains(passphrase) && !new.exists(), "{}", ended.err);
        }
        let words = ["set", path(&office.file), "0", "password", "--password-stdin"];
        assert!(talc(&words, bytes).err.contains(password));
    }
    let missing = format!("--password-file={}", path(&office.folder.0.join("missing")));
    assert_eq!(office.talc("add", &["title=x", &missing]).status, 66);
}

/// An entry that is none, or several, is told when the safe is open, and nothing is written.
#[test]
fn entries() {
    let office = Office::new("bad-entries");
    for (command, more) in [("set", &["title=x"][..]), ("remove", &[])] {
        for (entry, status) in [("7", 67), ("mill", 67), ("00000000", 67), ("r", 68), ("", 64)] {
            let ended = office.talc(command, &[&[entry], more].concat());
            assert_eq!((ended.status, ended.out.as_str()), (status, ""), "{entry}: {}", ended.err);
            assert!(!ended.err.contains("password"), "{}", ended.err);
        }
    }
    assert!(fs::read(&office.file).unwrap() == safe());
    assert!(!office.backup().exists());
    let missing = path(&office.folder.0.join("missing")).to_string();
    let ended = talc(&["set", &missing, "0", "title=x", "--passphrase-stdin"], PASSPHRASE);
    assert_eq!((ended.status, ended.out.as_str()), (66, ""), "{}", ended.err);
}

/// A safe that is refused is refused as with every command.
#[test]
fn refused_safes() {
    let office = Office::new("bad-safes");
    for (bytes, number) in [(&safe()[..100], 1), (&safe()[..safe().len() - 16], 7)] {
        fs::write(&office.file, bytes).unwrap();
        let ended = talc(&["set", path(&office.file), "0", "title=x"], b"");
        assert_eq!((ended.status, ended.out.as_str()), (number, ""), "{}", ended.err);
        assert!(fs::read(&office.file).unwrap() == bytes);
    }
    fs::write(&office.file, safe()).unwrap();
    let words = ["set", path(&office.file), "0", "title=x", "--passphrase-stdin"];
    assert_eq!(talc(&words, b"wrong").status, 8);
    assert_eq!(office.talc("set", &["0", "title=x", "--ceiling", "2047"]).status, 6);
    assert_eq!(office.folder.names(), ["a.psafe3", "passphrase", "password"]);
}

/// At a terminal: each prompt, what is typed at it, and how it ends.
fn typed(words: &[&str], lines: &[(&str, &str)]) -> (Option<i32>, String) {
    let mut terminal = Terminal::talc(words);
    for (prompt, line) in lines {
        terminal.shows(prompt);
        terminal.types(line.as_bytes());
    }
    let (status, _, shown) = terminal.ends();
    for (_, line) in lines {
        assert!(line.len() < 3 || !shown.contains(line.trim_end()), "shown: {shown}");
    }
    (status, shown)
}

#[test]
fn asked_twice() {
    let office = Office::new("asked");
    let file = path(&office.file);
    let passphrase = ("Passphrase: ", "floor 2\n");
    let [new, again] = ["New password: ", "New password again: "];
    let set = ["set", file, "1", "password"];
    let (status, shown) = typed(&set, &[passphrase, (new, "Äpfel 7\n"), (again, "Äpfel 8\n")]);
    assert_eq!(status, Some(64), "{shown}");
    assert!(shown.contains("the two differ, and nothing was written"), "{shown}");
    let (status, shown) = typed(&set, &[passphrase, (new, "\n")]);
    assert_eq!(status, Some(64), "{shown}");
    assert!(shown.contains("the password is empty"), "{shown}");
    let (status, shown) = typed(&set, &[passphrase, (new, "Äpf\x03")]);
    assert_eq!(status, Some(77), "{shown}");
    assert!(fs::read(&office.file).unwrap() == safe());
    let (status, shown) = typed(&set, &[passphrase, (new, "Äpfel 7\n"), (again, "Äpfel 7\n")]);
    assert_eq!(status, Some(0), "{shown}");
    assert!(office.sections()[2].contains(&Stored {
        fill: office.sections()[2][0].fill.clone(),
        ..fresh(0x06, "Äpfel 7")
    }));
    // A wrong entry is told before a password is asked for.
    assert_eq!(typed(&["set", file, "7", "password"], &[passphrase]).0, Some(67));
    let [new, again] = ["New passphrase: ", "New passphrase again: "];
    let lines = [passphrase, (new, "floor 3\n"), (again, "floor 3\n")];
    assert_eq!(typed(&["passphrase", file], &lines).0, Some(0));
    assert_eq!(sections(&office.file, b"floor 3").len(), 3);
    let made = office.folder.0.join("new.psafe3");
    let words = ["new", path(&made), "--iter", "2048"];
    assert_eq!(typed(&words, &[(new, "floor 4\n"), (again, "floor 5\n")]).0, Some(64));
    assert_eq!(typed(&words, &[(new, "\n")]).0, Some(64));
    assert!(!made.exists());
    assert_eq!(typed(&words, &[(new, "floor 4\n"), (again, "floor 4\n")]).0, Some(0));
    assert_eq!(sections(&made, b"floor 4").len(), 1);
}
