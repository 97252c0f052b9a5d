//! Where a text goes wrong, as a person reads it.

use crate::show;
use talcfeather::{append, fill_needed, record, walk, Cursor, Value};

const MARK: &[u8] = b"\xef\xbb\xbf";

/// The number alone: of what is hidden nothing else is said.
pub fn at(byte: usize) -> String {
    format!("goes wrong at byte {byte} (from 0)")
}

/// Also why, and what stands there: in hex the bytes at fault, in quotation marks what can be read
/// before them and behind them.
pub fn told(data: &[u8], byte: usize) -> String {
    let (before, rest) = data.split_at(byte.min(data.len()));
    let (wrong, after) = rest.split_at(length_of_fault(rest));
    let shown = [end_of(before), hex(wrong), start_of(after)];
    let shown: Vec<String> = shown.into_iter().filter(|part| !part.is_empty()).collect();
    format!("{}, {}: {}", at(byte), reason(rest), shown.join(" "))
}

/// Where the text of a column goes wrong: as the library tells it of a title.
pub fn of_column(text: &[u8]) -> Option<usize> {
    let fill = vec![0; fill_needed(text.len())];
    let mut body = vec![0; 5 + text.len() + fill.len()];
    append(&mut body, 0, record::TITLE, text, &fill).ok()?;
    match walk(&body, Cursor { place: 0, in_record: true }).ok()??.0.value {
        Value::BadText(byte) => Some(byte),
        _ => None,
    }
}

/// Of the bytes from the fault on, how many are wrong: the mark, a final 00, or all before the next
/// character.
fn length_of_fault(rest: &[u8]) -> usize {
    if rest.starts_with(MARK) {
        return MARK.len();
    }
    let no_characters = rest.utf8_chunks().take_while(|chunk| chunk.valid().is_empty());
    let bytes: usize = no_characters.map(|chunk| chunk.invalid().len()).sum();
    bytes.max(1).min(rest.len())
}

fn reason(rest: &[u8]) -> &'static str {
    match std::str::from_utf8(rest) {
        _ if rest.starts_with(MARK) => "a byte order mark",
        Ok(_) => "a final zero byte",
        Err(error) if error.error_len().is_none() => "cut within a character",
        Err(_) => "not UTF-8",
    }
}

/// Of text this many characters on each side are enough to find the place.
const ASIDE: usize = 20;

fn end_of(data: &[u8]) -> String {
    let text = String::from_utf8_lossy(data);
    let start = text.char_indices().rev().nth(ASIDE - 1).map_or(0, |(start, _)| start);
    let more = if start > 0 { ".." } else { "" };
    quoted(more, &text[start..], "")
}

fn start_of(data: &[u8]) -> String {
    let text = String::from_utf8_lossy(data);
    match text.char_indices().nth(ASIDE) {
        Some((end, _)) => quoted("", &text[..end], ".."),
        None => quoted("", &text, ""),
    }
}

/// A quotation mark within is written out, so that what follows is never taken for bytes in hex.
fn quoted(before: &str, text: &str, after: &str) -> String {
    match text {
        "" => String::new(),
        _ => format!("{before}{}{after}", show::quoted(text.as_bytes())),
    }
}

fn hex(bytes: &[u8]) -> String {
    const ENOUGH: usize = 8;
    let shown: Vec<String> = bytes.iter().take(ENOUGH).map(|byte| format!("{byte:02x}")).collect();
    shown.join(" ") + if bytes.len() > ENOUGH { ".." } else { "" }
}

#[test]
fn reasons() {
    let cases: [(&[u8], usize, &str); 9] = [
        (b"S\xe4gewerk", 1, "not UTF-8: \"S\" e4 \"gewerk\""),
        (b"\xd6l", 0, "not UTF-8: d6 \"l\""),
        (b"a\" ff \"b\xe4", 8, "cut within a character: \"a\\\" ff \\\"b\" e4"),
        (b"a\xed\xa0\x80\xffb\xc3", 1, "not UTF-8: \"a\" ed a0 80 ff \"b\u{fffd}\""),
        (b"Floor \xf0\x9f\x94", 6, "cut within a character: \"Floor \" f0 9f 94"),
        (b"\xef\xbb\xbfLathe", 0, "a byte order mark: ef bb bf \"Lathe\""),
        (b"\xef\xbb\xbf\xff\0", 0, "a byte order mark: ef bb bf \"\u{fffd}\\u{0}\""),
        (b"a\0b\0", 3, "a final zero byte: \"a\\u{0}b\" 00"),
        (b"\0", 0, "a final zero byte: 00"),
    ];
    for (data, byte, words) in cases {
        assert_eq!(told(data, byte), format!("goes wrong at byte {byte} (from 0), {words}"));
    }
}

#[test]
fn long_ones() {
    let side = "ä".repeat(19) + "\u{1b}";
    let data = [side.as_bytes(), &[0xff; 8], side.as_bytes()].concat();
    let bytes = "ff ff ff ff ff ff ff ff";
    let shown = "ä".repeat(19) + "\\u{1b}";
    let at = "goes wrong at byte 39 (from 0), not UTF-8";
    assert_eq!(told(&data, 39), format!("{at}: \"{shown}\" {bytes} \"{shown}\""));
    let data = [b"x", side.as_bytes(), &[0xff; 9], side.as_bytes(), b"x"].concat();
    let at = "goes wrong at byte 40 (from 0), not UTF-8";
    assert_eq!(told(&data, 40), format!("{at}: ..\"{shown}\" {bytes}.. \"{shown}\".."));
}

#[test]
fn columns() {
    let cases: [(&[u8], Option<usize>); 6] = [
        (b"", None),
        ("Sä\u{feff}".as_bytes(), None),
        (b"\xef\xbb\xbf", Some(0)),
        (b"\xef\xbb\xbfa\xff", Some(0)),
        (b"S\xe4", Some(1)),
        (b"Floor \xc3", Some(6)),
    ];
    for (text, byte) in cases {
        assert_eq!(of_column(text), byte, "{text:x?}");
    }
}
