//! `talc` on texts that go wrong: where, what stands there, and nothing of what is hidden.

#[path = "../../tests/common/mod.rs"]
mod common;
mod process;

use common::bodies::{join, part, Part};
use peer::fields::END;
use peer::random::Random;
use process::*;

const DATABASE_NAME: u8 = 0x09;
const NOTES: u8 = 0x05;
const PASSWORD: u8 = 0x06;
/// The types of text that are never shown.
const HIDDEN: [u8; 7] = [PASSWORD, 0x0f, 0x1c, 0x1d, 0x1e, 0x1f, 0x20];

/// The lines of `fields` for a safe of one login; those of `find` are their end.
fn lines(name: &str, header: &[Part], login: &[Part]) -> Vec<String> {
    let folder = Folder::new(name);
    let start = [&[part(0x00, &[0x0e, 0x03])], header, &[part(END, &[])]].concat();
    let record = [&[part(0x01, &[9; 16]), part(0x03, b"Printer")], login, &[part(END, &[])]];
    let body = join(&mut Random(1), &[start, record.concat()].concat());
    let file = folder.put("a.psafe3", &safe_around(&body, 2048));
    let run = |arguments: &[&str]| {
        let ended = talc(&[arguments, &["--passphrase-stdin"]].concat(), PASSPHRASE);
        assert_eq!((ended.status, ended.err.as_str()), (0, ""));
        assert!(ended.out.chars().all(|c| !c.is_control() || c == '\n'), "{}", ended.out);
        ended.out
    };
    let all = run(&["fields", path(&file)]);
    let found = run(&["find", path(&file), "09090909090909090909090909090909"]);
    assert!(all.ends_with(&found));
    all.lines().map(String::from).collect()
}

/// What is said behind the kind, line by line.
fn values(lines: &[String]) -> Vec<&str> {
    lines.iter().filter_map(|line| Some(line.split_once("BadText    ")?.1)).collect()
}

/// Each text, as a database's name and as notes, goes wrong at that byte, and these words are said.
fn told(name: &str, cases: &[(&[u8], usize, &str)]) {
    for (data, byte, words) in cases {
        let login = [part(PASSWORD, b"x"), part(NOTES, data)];
        let lines = lines(name, &[part(DATABASE_NAME, data)], &login);
        let value = format!("text goes wrong at byte {byte} (from 0), {words}");
        assert_eq!(values(&lines), [&value; 2]);
    }
}

#[test]
fn a_mark() {
    let cases: [(&[u8], usize, &str); 3] = [
        (b"\xef\xbb\xbf", 0, "a byte order mark: ef bb bf"),
        (b"\xef\xbb\xbfLathe", 0, "a byte order mark: ef bb bf \"Lathe\""),
        (b"\xef\xbb\xbfL\xff\0", 0, "a byte order mark: ef bb bf \"L\u{fffd}\\u{0}\""),
    ];
    told("text-mark", &cases);
}

#[test]
fn a_cut_character() {
    let cases: [(&[u8], usize, &str); 3] = [
        (b"\xc3", 0, "cut within a character: c3"),
        (b"S\xc3\xa4gewerk \xe5\xaf", 10, "cut within a character: \"Sägewerk \" e5 af"),
        (b"Floor \xf0\x9f\x94", 6, "cut within a character: \"Floor \" f0 9f 94"),
    ];
    told("text-cut", &cases);
}

#[test]
fn a_final_zero() {
    let cases: [(&[u8], usize, &str); 3] = [
        (b"\0", 0, "a final zero byte: 00"),
        (b"Lathe\0", 5, "a final zero byte: \"Lathe\" 00"),
        (b"La\0the\0\0", 7, "a final zero byte: \"La\\u{0}the\\u{0}\" 00"),
    ];
    told("text-zero", &cases);
}

#[test]
fn a_fault_in_the_middle() {
    let cases: [(&[u8], usize, &str); 4] = [
        (b"S\xe4gewerk", 1, "not UTF-8: \"S\" e4 \"gewerk\""),
        (b"\xd6lpumpe\xff", 0, "not UTF-8: d6 \"lpumpe\u{fffd}\""),
        (b"a\xed\xa0\x80\0", 1, "not UTF-8: \"a\" ed a0 80 \"\\u{0}\""),
        (b"\x1b[2J\xff\x1b[2J", 4, "not UTF-8: \"\\u{1b}[2J\" ff \"\\u{1b}[2J\""),
    ];
    told("text-middle", &cases);
}

/// Far behind the start of a long text, with as much around it as finds the place.
#[test]
fn a_fault_far_behind() {
    let text = "Tor 5, Schicht 2; ".repeat(4000).into_bytes();
    let words = "not UTF-8: ..\"; Tor 5, Schicht 2; \" 80 80 80 80 80 80 80 80.. \
                 \"Tor 5, Schicht 2; To\"..";
    told("text-far", &[(&[&text[..], &[0x80; 9], &text].concat(), 72_000, words)]);
}

/// Of what is hidden the number alone is said, and not what is wrong: no byte before it, at it or
/// behind it leaves, as text or in hex.
#[test]
fn a_fault_in_a_password() {
    let cases: [(&[u8], usize); 4] =
        [(b"key\xe4s", 3), (b"\xef\xbb\xbfkeys", 0), (b"keys\0", 4), (b"keys\xf0\x9f", 4)];
    for (data, byte) in cases {
        let lines = lines("text-hidden", &[], &HIDDEN.map(|kind| part(kind, data)));
        let value = format!("(hidden) text goes wrong at byte {byte} (from 0)");
        assert_eq!(values(&lines), [&value; 7]);
    }
}
