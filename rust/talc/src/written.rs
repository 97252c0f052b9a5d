//! Texts written out, so that they steer no terminal and break no line.

use std::ffi::OsStr;
use std::os::unix::ffi::OsStrExt;
use std::path::Path;

/// Control characters, and those that change the direction of a line or break it.
pub fn steers(c: char) -> bool {
    let turns = matches!(c, '\u{61c}' | '\u{200e}' | '\u{200f}' | '\u{2028}'..='\u{202e}');
    c.is_control() || turns || matches!(c, '\u{2066}'..='\u{2069}')
}

/// Bytes as text; what could steer a terminal is written out. So is a backslash, which then is
/// never taken for the start of something written out.
pub fn text(data: &[u8]) -> String {
    let mut shown = String::new();
    for c in String::from_utf8_lossy(data).chars() {
        if steers(c) || c == '\\' {
            shown.extend(c.escape_default());
        } else {
            shown.push(c);
        }
    }
    shown
}

/// Between quotation marks; one within is written out.
pub fn quoted(data: &[u8]) -> String {
    format!("\"{}\"", text(data).replace('"', "\\\""))
}

/// The start of a long text.
pub fn short(data: &[u8]) -> String {
    const ENOUGH: usize = 60;
    let whole = text(data);
    match whole.char_indices().nth(ENOUGH) {
        Some((end, _)) => format!("{}..", &whole[..end]),
        None => whole,
    }
}

/// A word of the command line.
pub fn name(name: &OsStr) -> String {
    text(name.as_bytes())
}

pub fn path(path: &Path) -> String {
    name(path.as_os_str())
}

#[test]
fn texts() {
    assert_eq!(text("a\u{1b}[2J\n\u{202e}ä".as_bytes()), "a\\u{1b}[2J\\n\\u{202e}ä");
    let turns = ['\u{61c}', '\u{200e}', '\u{200f}', '\u{202a}', '\u{202e}', '\u{2066}', '\u{2069}'];
    for c in turns {
        assert_eq!(text(c.to_string().as_bytes()), c.escape_unicode().to_string());
    }
    assert_eq!(text(b"a\n"), "a\\n");
    assert_eq!(text(b"a\\n"), "a\\\\n");
    assert_eq!(text(&[b'a', 0xff]), "a\u{fffd}");
    assert_eq!(short("ä".repeat(61).as_bytes()), "ä".repeat(60) + "..");
}

#[test]
fn backslashes_and_quotation_marks() {
    let cases: [(&[u8], &str); 7] = [
        (b"OFFICE\\tom", "OFFICE\\\\tom"),
        (b"\\\\server\\new\\", "\\\\\\\\server\\\\new\\\\"),
        (b"\\u{1b}", "\\\\u{1b}"),
        (b"\\\x1b", "\\\\\\u{1b}"),
        ("\u{fffd}".as_bytes(), "\u{fffd}"),
        (b"a\"b", "a\"b"),
        (b"", ""),
    ];
    for (data, shown) in cases {
        assert_eq!(text(data), shown);
    }
    assert_eq!(quoted(b"a\"b\\"), "\"a\\\"b\\\\\"");
}

/// Two texts that differ are shown differently: what is shown can be read back.
#[test]
fn read_back() {
    let pieces = ["", "\\", "u", "x", "{", "}", "1b", "\u{1b}", "5c"];
    let mut seen = std::collections::BTreeMap::new();
    let number = |mut number: usize| {
        let mut text = String::new();
        for _ in 0..5 {
            text += pieces[number % pieces.len()];
            number /= pieces.len();
        }
        text
    };
    for text in (0..pieces.len().pow(5)).map(number) {
        let shown = super::written::text(text.as_bytes());
        assert_eq!(seen.entry(shown).or_insert(text.clone()), &text);
    }
}
