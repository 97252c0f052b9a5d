//! ENTRY: which record a person means.

use crate::show;
use crate::trouble::Trouble;
use std::ffi::OsStr;
use std::path::Path;
use talcfeather::{record, Opened, Record, Refusal, Uuid};

/// What was typed for an entry.
#[derive(Debug, PartialEq)]
pub enum Entry {
    /// The record's number, from 0.
    Number(u64),
    /// A UUID or its first digits, small ones; where no UUID starts like that, they are a word.
    Digits(String),
    /// Small letters all.
    Words(Vec<String>),
}

/// The texts that words are looked for in.
const TEXTS: [u8; 3] = [record::TITLE, record::USER, record::GROUP];

impl Entry {
    /// Up to five decimal digits alone are a record's number.
    pub fn of(typed: &OsStr) -> Result<Entry, Trouble> {
        let text = typed.to_str().ok_or_else(|| wrong(typed, "is not UTF-8"))?;
        if text.chars().any(char::is_control) {
            return Err(wrong(typed, "has control characters"));
        }
        if text.len() <= 5 && text.bytes().all(|byte| byte.is_ascii_digit()) {
            if let Ok(number) = text.parse() {
                return Ok(Entry::Number(number));
            }
        }
        let words: Vec<String> = text.split_whitespace().map(str::to_lowercase).collect();
        match &words[..] {
            [] => Err(Trouble::usage("an entry needs a number, a UUID or a word")),
            [word] if digits(word).is_some() => Ok(Entry::Digits(digits(word).unwrap_or_default())),
            _ => Ok(Entry::Words(words)),
        }
    }

    /// Where it is a whole UUID.
    fn uuid(&self) -> Option<Uuid> {
        match self {
            Entry::Digits(digits) => digits.parse().ok(),
            _ => None,
        }
    }

    /// All records that it can mean, in the order of the safe.
    fn matches<'o>(&self, opened: &'o Opened) -> Result<Vec<Record<'o>>, Refusal> {
        let all = || opened.records().collect::<Result<Vec<_>, _>>();
        let mut records = all()?;
        match self {
            Entry::Number(number) => records.retain(|record| record.number == *number),
            Entry::Words(words) => records.retain(|record| holds(record, words)),
            Entry::Digits(start) => {
                records.retain(|record| uuid(record).starts_with(start));
                if records.is_empty() && self.uuid().is_none() {
                    records = all()?;
                    records.retain(|record| holds(record, std::slice::from_ref(start)));
                }
            }
        }
        Ok(records)
    }

    /// The one record that is meant: of several, the only one whose whole title is the words.
    pub fn only<'o>(&self, path: &Path, opened: &'o Opened) -> Result<Record<'o>, Trouble> {
        let refused = |refusal| Trouble::refused(path, refusal);
        let matches = self.matches(opened).map_err(refused)?;
        let titled: Vec<&Record> = matches.iter().filter(|record| self.is_title(record)).collect();
        match (&matches[..], &titled[..]) {
            ([record], _) => Ok(*record),
            (_, [record]) => Ok(**record),
            ([], _) => Err(self.none(path)),
            _ => Err(several(path, &matches)),
        }
    }

    fn is_title(&self, record: &Record) -> bool {
        let title = text(record, record::TITLE).to_lowercase();
        matches!(self, Entry::Words(words) if title.split_whitespace().eq(words))
    }

    fn none(&self, path: &Path) -> Trouble {
        let path = show::path(path);
        Trouble::NoRecord(match self {
            Entry::Number(number) => format!("{path}: no record has the number {number}"),
            _ if self.uuid().is_some() => format!("{path}: no record has that UUID"),
            Entry::Digits(_) => {
                format!("{path}: no record's UUID starts with that, and no login has it")
            }
            Entry::Words(_) => {
                format!("{path}: no login has these words in title, user name and group")
            }
        })
    }
}

fn wrong(typed: &OsStr, what: &str) -> Trouble {
    Trouble::usage(format!("the entry \"{}\" {what}", show::name(typed)))
}

/// 8 to 32 hex digits, without their hyphens.
fn digits(word: &str) -> Option<String> {
    let digits: String = word.chars().filter(|c| *c != '-').collect();
    let hex = digits.bytes().all(|byte| byte.is_ascii_hexdigit());
    (hex && (8..=32).contains(&digits.len())).then_some(digits)
}

fn text(record: &Record, kind: u8) -> String {
    let field = record.first(kind);
    field.map_or(String::new(), |field| String::from_utf8_lossy(field.data).into_owned())
}

fn uuid(record: &Record) -> String {
    record.uuid().map_or(String::new(), |uuid| uuid.to_string())
}

/// Whether title, user name and group, taken together, hold every word.
fn holds(record: &Record, words: &[String]) -> bool {
    let texts = TEXTS.map(|kind| text(record, kind)).join("\n").to_lowercase();
    words.iter().all(|word| texts.contains(word))
}

/// Number, title, user name and group.
fn told(record: &Record) -> String {
    let quoted = |kind| show::quoted(record.first(kind).map_or(&[][..], |field| field.data));
    format!("{}, {}", record.number, TEXTS.map(quoted).join(", "))
}

fn several(path: &Path, records: &[Record]) -> Trouble {
    let (path, count) = (show::path(path), records.len());
    let all = records.iter().map(told).collect::<Vec<_>>().join("; ");
    Trouble::Several(format!("{path}: {count} entries match: give the number of one: {all}"))
}

#[test]
fn typed() {
    let entry = |text: &str| Entry::of(OsStr::new(text)).unwrap();
    let words = |words: &[&str]| Entry::Words(words.iter().map(|word| word.to_string()).collect());
    assert_eq!(entry("0"), Entry::Number(0));
    assert_eq!(entry("00042"), Entry::Number(42));
    assert_eq!(entry("123456"), words(&["123456"]));
    assert_eq!(entry("Lathe  3"), words(&["lathe", "3"]));
    assert_eq!(entry("1234567"), words(&["1234567"]));
    assert_eq!(entry("12345678"), Entry::Digits("12345678".into()));
    assert_eq!(entry("62FC-060b"), Entry::Digits("62fc060b".into()));
    let whole = "62fc060b9dcfdd26844f36c7e392975f";
    assert_eq!(entry(whole), Entry::Digits(whole.into()));
    assert_eq!(entry(&format!("{whole}0")), words(&[&format!("{whole}0")]));
    for wrong in ["", " ", "a\u{1b}", "a\nb"] {
        assert_eq!(Entry::of(OsStr::new(wrong)).unwrap_err().status(), 64);
    }
}
