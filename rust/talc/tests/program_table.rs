//! `talc table` and `talc rows` as processes: what is said, the exit status, and what is left behind.

#[path = "../../tests/common/mod.rs"]
mod common;
mod process;

use common::bodies::{part, Part};
use common::elsewhere::built;
use common::tables::{body_of, login, stored, DAY, EXPIRY, GROUP, NEVER, NOW, TITLE, USER};
use peer::random::Random;
use process::*;
use std::fs;
use std::os::unix::fs::{symlink, PermissionsExt};
use std::path::{Path, PathBuf};
use std::process::Stdio;
use std::time::{SystemTime, UNIX_EPOCH};

fn table(file: &Path, out: &Path, now: &str) -> Ended {
    talc(&["table", path(file), path(out), "--now", now, "--passphrase-stdin"], PASSPHRASE)
}

fn rows(table: &Path) -> Ended {
    talc(&["rows", path(table)], b"")
}

const DREHBANK: &str = "Drehbank\t3\u{1b}[2J \\t ä";

/// The table of the two logins of the safe, at that now.
fn two_rows(now: u32) -> Vec<u8> {
    let days = peer::table::days(1_900_000_000, now);
    let uuid = UUID.try_into().unwrap();
    let lathe = stored(uuid, [DREHBANK.as_bytes(), b"worker", b"Floor.Lathes"], days);
    [lathe, stored(&[9; 16], [b"Printer", b"", b""], NEVER)].concat()
}

/// A safe of one login with these fields.
fn safe_of(fields: &[Part]) -> Vec<u8> {
    let logins = [login(&[1; 16], &[]), login(&[2; 16], fields)];
    safe_around(&body_of(&mut Random(1), &logins), 2048)
}

fn no_password(bytes: &[u8]) {
    for secret in ["password", "two factor", "another", "floor 2", "the pass", "old p"] {
        let found = bytes.windows(secret.len()).any(|part| part == secret.as_bytes());
        assert!(!found, "{secret} left");
    }
}

#[test]
fn made_and_told() {
    let folder = Folder::new("table");
    let file = folder.put("a.psafe3", &safe());
    let out = folder.0.join("floor.table");
    let cases = [
        ("1793606400", NOW, "2026-11-02 08:00:00 UTC"),
        ("0", 0, "1970-01-01 00:00:00 UTC"),
        ("4294967295", u32::MAX, "2106-02-07 06:28:15 UTC"),
    ];
    for (given, now, time) in cases {
        // Made the first time, then replaced.
        let ended = table(&file, &out, given);
        let told = format!("{}: rows: 2, days from {time}\n", out.display());
        assert_eq!((ended.status, ended.out, ended.err.as_str()), (0, told, ""));
        let bytes = fs::read(&out).unwrap();
        assert!(bytes == two_rows(now));
        no_password(&bytes);
        assert_eq!(fs::metadata(&out).unwrap().permissions().mode() & 0o777, 0o600);
        assert_eq!(folder.names(), ["a.psafe3", "floor.table"]);
        assert!(fs::read(&file).unwrap() == safe());
    }
}

#[test]
fn the_clock() {
    let folder = Folder::new("table-clock");
    let clock = || SystemTime::now().duration_since(UNIX_EPOCH).unwrap().as_secs() as u32;
    let expiry = clock() + 10 * DAY + 3600;
    let safe = safe_of(&[part(EXPIRY, &expiry.to_le_bytes())]);
    let file = folder.put("a.psafe3", &safe);
    let out = folder.0.join("floor.table");
    let arguments = ["table", path(&file), path(&out), "--passphrase-stdin"];
    let (before, ended, after) = (clock(), talc(&arguments, PASSPHRASE), clock());
    assert_eq!(ended.status, 0, "{}", ended.err);
    let bytes = fs::read(&out).unwrap();
    let days = i32::from_le_bytes(bytes[256 + 248..256 + 252].try_into().unwrap());
    let between = peer::table::days(expiry, after)..=peer::table::days(expiry, before);
    assert!(between.contains(&days), "{days} days, not {between:?}");
    assert_eq!(days, 10);
}

#[test]
fn rows_shown() {
    let folder = Folder::new("rows");
    let out = folder.put("floor.table", &two_rows(NOW));
    let ended = rows(&out);
    let lathe = "0123456789abcdef30313233343536ff\tDrehbank\\t3\\u{1b}[2J \\\\t ä\tworker";
    let printer = "09090909090909090909090909090909\tPrinter\t\t\tno expiry";
    let expected = format!("{lathe}\tFloor.Lathes\t1231 days\n{printer}\n");
    assert_eq!((ended.status, ended.out, ended.err.as_str()), (0, expected, ""));
    assert!(fs::read(&out).unwrap() == two_rows(NOW));
    let words = [(-1, "expired"), (i32::MIN, "expired"), (0, "0 days"), (1, "1 day")];
    for (days, word) in words {
        let out = folder.put("floor.table", &stored(&[0; 16], [b"", b"", b""], days));
        assert_eq!(rows(&out).out, format!("{}\t\t\t\t{word}\n", "0".repeat(32)));
    }
    let empty = folder.put("empty.table", b"");
    let ended = rows(&empty);
    assert_eq!((ended.status, ended.out.as_str()), (0, ""), "{}", ended.err);
}

/// A safe without a login has an empty table.
#[test]
fn no_login() {
    let folder = Folder::new("table-empty");
    let body = body_of(&mut Random(1), &[]);
    let file = folder.put("a.psafe3", &safe_around(&body, 2048));
    let out = folder.0.join("floor.table");
    let ended = table(&file, &out, "5");
    assert_eq!(ended.status, 0, "{}", ended.err);
    assert!(ended.out.contains("rows: 0, "), "{}", ended.out);
    assert!(fs::read(&out).unwrap().is_empty());
}

/// Logins that do not fit, each with the words for it.
fn unfit() -> Vec<(Part, &'static str)> {
    vec![
        (
            part(USER, &[b'u'; 81]),
            "\"Lathe\": its user name has 81 bytes, and the table has room for 80: shorten it",
        ),
        (
            part(GROUP, "ä".repeat(37).as_bytes()),
            "\"Lathe\": its group has 74 bytes, and the table has room for 72: shorten it",
        ),
        (
            part(TITLE, "Drehbank ".repeat(9).as_bytes()),
            "Drehbank Drehbank Drehba..\": its title has 81 bytes, and the table has room for 80: \
             shorten it",
        ),
        (part(USER, b"worker\0"), "\"Lathe\": its user name has a zero byte in it: type it again"),
        (
            part(GROUP, b"Fl\0or"),
            "\"Lathe\": its group has a zero byte in it: type it again without",
        ),
        (part(EXPIRY, &[1; 3]), "\"Lathe\": its expiry has 3 bytes, not 4: set the expiry again"),
        (part(EXPIRY, &[1; 8]), "\"Lathe\": its expiry has 8 bytes, not 4: set the expiry again"),
        (
            part(EXPIRY, b"4A5B6C7D"),
            "\"Lathe\": its expiry has 8 bytes, not 4: set the expiry again",
        ),
    ]
}

/// Those with a text that goes wrong. A zero byte is told before that, and that before the length.
fn damaged() -> Vec<(Part, &'static str)> {
    vec![
        (
            part(TITLE, b"Lat\x1b\xff"),
            "\"Lat\\u{1b}\u{fffd}\": its title goes wrong at byte 4 (from 0), not UTF-8: \
             \"Lat\\u{1b}\" ff: type it again",
        ),
        (
            part(USER, b"\xef\xbb\xbfworker"),
            "\"Lathe\": its user name goes wrong at byte 0 (from 0), a byte order mark: \
             ef bb bf \"worker\": type it again",
        ),
        (
            part(USER, &[&[b'n'; 90], &b"\xf6\xdf 2"[..]].concat()),
            "\"Lathe\": its user name goes wrong at byte 90 (from 0), not UTF-8: \
             ..\"nnnnnnnnnnnnnnnnnnnn\" f6 df \" 2\": type it again",
        ),
        (
            part(GROUP, b"Floor \xc3"),
            "\"Lathe\": its group goes wrong at byte 6 (from 0), cut within a character: \
             \"Floor \" c3: type it again",
        ),
        (
            part(GROUP, b"\xffFl\0or"),
            "\"Lathe\": its group has a zero byte in it: type it again without",
        ),
    ]
}

/// Such a safe is told in words, with no password, and OUT is what it was.
#[test]
fn unfit_logins() {
    let folder = Folder::new("table-unfit");
    let (out, held) = (folder.0.join("new.table"), folder.put("held.table", &two_rows(7)));
    for (field, words) in unfit().into_iter().chain(damaged()) {
        let file = folder.put("a.psafe3", &safe_of(&[field]));
        for out in [&out, &held] {
            let ended = table(&file, out, "5");
            assert_eq!((ended.status, ended.out.as_str()), (18, ""), "{}", ended.err);
            let told = format!("talc: {}: refused, 18: record 1, \"", file.display());
            assert!(ended.err.starts_with(&told), "{}", ended.err);
            assert!(ended.err.contains(words), "{}", ended.err);
            assert!(ended.err.ends_with(", and save the safe again\n"), "{}", ended.err);
            assert!(ended.err.trim_end().chars().all(|c| !c.is_control()), "{}", ended.err);
            no_password(ended.err.as_bytes());
        }
        assert!(fs::read(&held).unwrap() == two_rows(7));
        assert_eq!(folder.names(), ["a.psafe3", "held.table"]);
    }
}

/// A table of four rows with these bytes in it.
fn table_with(byte: usize, bytes: &[u8]) -> Vec<u8> {
    let mut table = two_rows(NOW).repeat(2);
    table[byte..byte + bytes.len()].copy_from_slice(bytes);
    table
}

/// Each table is refused with the words for it, and is what it was.
fn refused_rows(name: &str, cases: &[(Vec<u8>, &str)]) {
    let folder = Folder::new(name);
    for (bytes, words) in cases {
        let file = folder.put("floor.table", bytes);
        let ended = rows(&file);
        assert_eq!((ended.status, ended.out.as_str()), (18, ""), "{}", ended.err);
        let told = format!("talc: {}: refused, 18: {words}: copy the table again", file.display());
        assert!(ended.err.starts_with(&told), "{}", ended.err);
        assert!(fs::read(&file).unwrap() == *bytes);
    }
}

#[test]
fn rows_at_fault() {
    let cases = [
        (two_rows(NOW)[..255].to_vec(), "row 0, at byte 0: it is cut: 255 of 256 bytes"),
        (two_rows(NOW)[..257].to_vec(), "row 1, at byte 256: it is cut: 1 of 256 bytes"),
        (table_with(512 + 247, b"x"), "row 2, at byte 512: its group has something after its end"),
        (table_with(768 + 252, &[1]), "row 3, at byte 768: its pad is not zero"),
        (table_with(768 + 255, &[1]), "row 3, at byte 768: its pad is not zero"),
    ];
    refused_rows("rows-fault", &cases);
}

#[test]
fn texts_of_rows_that_go_wrong() {
    let cases = [
        (
            table_with(256 + 16, &[0xff]),
            "row 1, at byte 256: its title goes wrong at byte 0 (from 0), not UTF-8: ff \"rinter\"",
        ),
        (
            table_with(512 + 96, b"\xef\xbb\xbf"),
            "row 2, at byte 512: its user name goes wrong at byte 0 (from 0), a byte order mark: \
             ef bb bf \"ker\"",
        ),
        (
            table_with(512 + 96 + 6, b"\xe5\xaf"),
            "row 2, at byte 512: its user name goes wrong at byte 6 (from 0), cut within a \
             character: \"worker\" e5 af",
        ),
        (
            table_with(512 + 176, &[&[b'n'; 71], &b"\xc3"[..]].concat()),
            "row 2, at byte 512: its group goes wrong at byte 71 (from 0), cut within a character: \
             ..\"nnnnnnnnnnnnnnnnnnnn\" c3",
        ),
        (
            table_with(512 + 176 + 5, &[0xff]),
            "row 2, at byte 512: its group goes wrong at byte 5 (from 0), not UTF-8: \"Floor\" ff \
             \"Lathes\"",
        ),
    ];
    refused_rows("rows-text", &cases);
}

/// What is no table keeps its place: the safe itself, another file, a folder, a link, a device.
#[test]
fn not_replaced() {
    let folder = Folder::new("table-place");
    let file = folder.put("a.psafe3", &safe());
    let other = folder.put("other", b"minutes of a meeting");
    let cut = folder.put("cut.table", &two_rows(5)[..300]);
    let target = folder.put("target.table", &two_rows(5));
    let (link, taken) = (folder.0.join("link"), folder.0.join("taken"));
    symlink(&target, &link).unwrap();
    fs::create_dir(&taken).unwrap();
    let cases = [
        (&file, "is no table"),
        (&other, "is no table"),
        (&cut, "is no table"),
        (&link, "no regular file"),
        (&taken, "no regular file"),
        (&PathBuf::from("/dev/null"), "no regular file"),
    ];
    for (out, words) in cases {
        // Without a terminal, asking for a passphrase would be 64.
        let ended = talc(&["table", path(&file), path(out)], b"");
        assert_eq!((ended.status, ended.out.as_str()), (73, ""), "{}", ended.err);
        assert!(ended.err.contains(words) && ended.err.contains("not replaced"), "{}", ended.err);
    }
    assert_eq!(table(&file, &folder.0.join("no/such/table"), "5").status, 73);
    assert!(fs::read(&file).unwrap() == safe());
    assert_eq!(fs::read(&other).unwrap(), b"minutes of a meeting");
    assert!(fs::symlink_metadata(&link).unwrap().is_symlink());
    assert!(fs::read(&target).unwrap() == two_rows(5));
    let names = ["a.psafe3", "cut.table", "link", "other", "taken", "target.table"];
    assert_eq!(folder.names(), names);
}

/// What keeps a safe from being opened is as with every command, and nothing is written.
#[test]
fn safes_that_do_not_open() {
    let folder = Folder::new("table-refused");
    let mut damaged = safe();
    *damaged.last_mut().unwrap() ^= 1;
    let out = folder.0.join("floor.table");
    let cases =
        [(safe()[..100].to_vec(), 1), (safe()[..safe().len() - 16].to_vec(), 7), (damaged, 9)];
    for (bytes, number) in cases {
        let file = folder.put("a.psafe3", &bytes);
        let ended = table(&file, &out, "5");
        assert_eq!((ended.status, ended.out.as_str()), (number, ""), "{}", ended.err);
    }
    let file = folder.put("a.psafe3", &safe());
    let ended = talc(&["table", path(&file), path(&out), "--passphrase-stdin"], b"wrong");
    assert_eq!(ended.status, 8);
    for unreadable in [&folder.0.join("missing"), &folder.0] {
        assert_eq!(table(unreadable, &out, "5").status, 66);
        let ended = rows(unreadable);
        assert_eq!((ended.status, ended.out.as_str()), (66, ""), "{}", ended.err);
    }
    assert_eq!(folder.names(), ["a.psafe3"]);
}

#[test]
fn wrong_arguments() {
    let cases = [
        "table f",
        "table f g h",
        "table f g --state s",
        "table f g --now",
        "table f g --now today",
        "table f g --now=-1",
        "table f g --now=4294967296",
        "table f g --now=",
        "list f --now 5",
        "replay s t --now 5",
        "rows",
        "rows t u",
        "rows t --now 5",
        "rows t --passphrase-stdin",
        "rows t --passphrase-file g",
        "rows t --ceiling 5000",
        "rows t --state s",
    ];
    for case in cases {
        let ended = talc(&case.split(' ').collect::<Vec<_>>(), b"");
        assert_eq!((ended.status, ended.out.as_str()), (64, ""), "{case}");
        assert!(ended.err.contains("--help"), "{}", ended.err);
    }
}

/// A table that can be written only in part is not written at all.
#[test]
fn written_in_part() {
    let folder = Folder::new("table-part");
    let file = folder.put("a.psafe3", &safe());
    let stored = folder.put("passphrase", PASSPHRASE);
    let out = folder.put("floor.table", &two_rows(5));
    let options = ["--now", "7", "--passphrase-file", path(&stored)];
    let arguments = [&["table", path(&file), path(&out)][..], &options].concat();
    let output = talc_writing_at_most(300, &arguments);
    assert_eq!((output.status.code(), output.stdout), (Some(73), Vec::new()));
    assert!(fs::read(&out).unwrap() == two_rows(5));
    assert_eq!(folder.names(), ["a.psafe3", "floor.table", "passphrase"]);
}

/// The table is kept before anything is said.
#[test]
fn nobody_listens() {
    let folder = Folder::new("table-full");
    let file = folder.put("a.psafe3", &safe());
    let stored = folder.put("passphrase", PASSPHRASE);
    let out = folder.0.join("floor.table");
    let full = fs::OpenOptions::new().write(true).open("/dev/full").unwrap();
    let mut command = built(env!("CARGO_BIN_EXE_talc"));
    command.args(["table", path(&file), path(&out), "--now", "7"]);
    command.args(["--passphrase-file", path(&stored)]);
    let output = command.stdout(full).stderr(Stdio::piped()).output().unwrap();
    assert_eq!(output.status.code(), Some(74));
    assert!(fs::read(&out).unwrap() == two_rows(7));
}

/// The table in examples/ is the export of the safe beside it, and shows its four logins.
#[test]
fn the_examples() {
    let examples = Path::new(env!("CARGO_MANIFEST_DIR")).join("../../examples");
    let (safe, held) = (examples.join("floor.psafe3"), examples.join("floor.table"));
    let passphrase = examples.join("floor.passphrase");
    let folder = Folder::new("table-examples");
    let out = folder.0.join("floor.table");
    let options = ["--now", "1793606400", "--passphrase-file", path(&passphrase)];
    let ended = talc(&[&["table", path(&safe), path(&out)][..], &options].concat(), b"");
    assert_eq!(ended.status, 0, "{}", ended.err);
    assert!(fs::read(&out).unwrap() == fs::read(&held).unwrap());
    let expected = [
        "62fc060b9dcfdd26844f36c7e392975f\tLathe 3\tworker\tFloor 2.Lathes\t424 days",
        "b8c683d9cbd922e22b80fdc084017135\tMill 1, spindle\tworker\tFloor 2.Mills\t240 days",
        "455aff5673fabadf706c213588743bc8\tLabel printer\tprint\tOffice\tno expiry",
        "808c09fc3a19c5f63fb24fda849a8320\tSägewerk\tmüller\tFloor 1\tno expiry\n",
    ];
    assert_eq!(rows(&held).out, expected.join("\n"));
}
