//! JSON, for other programs.

use crate::written;
use crate::{names, show};
use std::fmt;
use talcfeather::{Field, Record, Value};

pub enum Json {
    Null,
    Flag(bool),
    Number(i64),
    Text(String),
    List(Vec<Json>),
    Object(Vec<(&'static str, Json)>),
}

impl Json {
    /// Null where there is none.
    pub fn or_null(json: Option<Json>) -> Json {
        json.unwrap_or(Json::Null)
    }

    pub fn text(text: impl Into<String>) -> Json {
        Json::Text(text.into())
    }

    /// A count of what a file holds: none is over four million.
    pub fn count(count: impl TryInto<i64>) -> Json {
        Json::Number(count.try_into().unwrap_or(i64::MAX))
    }

    /// One line; of a list, a line each.
    pub fn lines(self) -> String {
        match self {
            Json::List(items) if !items.is_empty() => {
                let items: Vec<String> = items.iter().map(Json::to_string).collect();
                format!("[\n{}\n]\n", items.join(",\n"))
            }
            other => format!("{other}\n"),
        }
    }
}

/// Nothing in it steers a terminal or breaks a line. What has to be written out is below U+10000.
fn string(text: &str, f: &mut fmt::Formatter<'_>) -> fmt::Result {
    f.write_str("\"")?;
    for c in text.chars() {
        match c {
            '"' | '\\' => write!(f, "\\{c}")?,
            _ if written::steers(c) => write!(f, "\\u{:04x}", u32::from(c))?,
            _ => write!(f, "{c}")?,
        }
    }
    f.write_str("\"")
}

fn all<T>(f: &mut fmt::Formatter<'_>, items: &[T], one: Each<T>) -> fmt::Result {
    for (number, item) in items.iter().enumerate() {
        f.write_str(if number > 0 { "," } else { "" })?;
        one(item, f)?;
    }
    Ok(())
}

type Each<T> = fn(&T, &mut fmt::Formatter<'_>) -> fmt::Result;

impl fmt::Display for Json {
    fn fmt(&self, f: &mut fmt::Formatter<'_>) -> fmt::Result {
        match self {
            Json::Null => f.write_str("null"),
            Json::Flag(flag) => write!(f, "{flag}"),
            Json::Number(number) => write!(f, "{number}"),
            Json::Text(text) => string(text, f),
            Json::List(items) => {
                f.write_str("[")?;
                all(f, items, |item, f| write!(f, "{item}"))?;
                f.write_str("]")
            }
            Json::Object(members) => {
                f.write_str("{")?;
                all(f, members, |(name, value), f| write!(f, "\"{name}\":{value}"))?;
                f.write_str("}")
            }
        }
    }
}

/// What a field holds, whole: what is no text, number or time, in hex.
pub fn value(field: &Field) -> Json {
    let hex = || ("hex", Json::Text(show::hex(field.data)));
    match field.value {
        Value::Empty | Value::End => Json::Null,
        Value::Uuid(uuid) => Json::Text(uuid.to_string()),
        Value::Time(seconds) => Json::Text(show::stamp(seconds)),
        Value::Number(number) => Json::count(number),
        Value::Flag(flag) => Json::Flag(flag),
        Value::Text(text) => Json::text(text),
        Value::BadText(byte) => Json::Object(vec![("bad_text_at", Json::count(byte)), hex()]),
        _ => Json::Object(vec![hex()]),
    }
}

/// A field with all that is said of it; of a hidden one neither value nor length, unless revealed.
pub fn field(field: &Field, in_record: bool, reveal: bool) -> Json {
    let hidden = names::is_secret(field.kind, in_record) && !reveal;
    let unless_hidden = |json: Json| if hidden { Json::Null } else { json };
    Json::Object(vec![
        ("place", Json::count(field.place)),
        ("type", Json::count(field.kind)),
        ("name", Json::text(names::name(field.kind, in_record))),
        ("kind", Json::text(show::kind(field.value))),
        ("hidden", Json::Flag(hidden)),
        ("length", unless_hidden(Json::count(field.data.len()))),
        ("value", unless_hidden(value(field))),
    ])
}

/// The first field of that type in a record. A time of 0 is none.
pub fn first(record: &Record, kind: u8) -> Json {
    let field = record.first(kind).filter(|field| field.value != Value::Time(0));
    Json::or_null(field.map(|field| value(&field)))
}

#[test]
fn encoded() {
    let text = |text: &str| Json::text(text).to_string();
    assert_eq!(text("ä\"\\/"), "\"ä\\\"\\\\/\"");
    assert_eq!(
        text("a\n\t\u{0}\u{1b}\u{7f}\u{85}"),
        "\"a\\u000a\\u0009\\u0000\\u001b\\u007f\\u0085\""
    );
    assert_eq!(text("\u{202e}🔑\u{2028}"), "\"\\u202e🔑\\u2028\"");
    let object = Json::Object(vec![("a", Json::Null), ("b", Json::List(vec![]))]);
    assert_eq!(object.to_string(), "{\"a\":null,\"b\":[]}");
    let list = Json::List(vec![Json::Number(-1), Json::Flag(true)]);
    assert_eq!(list.to_string(), "[-1,true]");
    assert_eq!(list.lines(), "[\n-1,\ntrue\n]\n");
    assert_eq!(Json::List(vec![]).lines(), "[]\n");
}
