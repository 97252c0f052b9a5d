//! Values as a person reads them.

use crate::fault;
pub use crate::written::{name, path, quoted, short, text};
use talcfeather::{Field, Value};

/// Year, month and day of a day counted from 1970-01-01.
fn date(mut day: u32) -> (u32, u32, u32) {
    let leap = |year: u32| year % 4 == 0 && (year % 100 != 0 || year % 400 == 0);
    let mut year = 1970;
    while day >= 365 + u32::from(leap(year)) {
        day -= 365 + u32::from(leap(year));
        year += 1;
    }
    let february = 28 + u32::from(leap(year));
    let mut month = 1;
    for length in [31, february, 31, 30, 31, 30, 31, 31, 30, 31, 30] {
        if day < length {
            break;
        }
        day -= length;
        month += 1;
    }
    (year, month, day + 1)
}

/// The day, in UTC.
pub fn day(seconds: u32) -> String {
    let (year, month, day) = date(seconds / 86_400);
    format!("{year:04}-{month:02}-{day:02}")
}

pub fn time(seconds: u32) -> String {
    let rest = seconds % 86_400;
    let (hour, minute, second) = (rest / 3600, rest / 60 % 60, rest % 60);
    format!("{} {hour:02}:{minute:02}:{second:02} UTC", day(seconds))
}

/// The same for other programs.
pub fn stamp(seconds: u32) -> String {
    time(seconds).replace(" UTC", "Z").replace(' ', "T")
}

pub fn hex(data: &[u8]) -> String {
    data.iter().map(|byte| format!("{byte:02x}")).collect()
}

pub fn kind(value: Value) -> &'static str {
    match value {
        Value::Empty => "Empty",
        Value::End => "End",
        Value::Uuid(_) => "Uuid",
        Value::Time(_) => "Time",
        Value::Number(_) => "Number",
        Value::Flag(_) => "Flag",
        Value::Text(_) => "Text",
        Value::BadText(_) => "BadText",
        Value::Misshapen => "Misshapen",
        _ => "Opaque",
    }
}

/// What a field holds, if that has a form of its own.
pub fn value(field: &Field) -> String {
    match field.value {
        Value::Uuid(uuid) => uuid.to_string(),
        Value::Time(seconds) => time(seconds),
        Value::Number(number) => number.to_string(),
        Value::Flag(flag) => flag.to_string(),
        Value::Text(text) => short(text.as_bytes()),
        Value::BadText(byte) => format!("text {}", fault::told(field.data, byte)),
        _ => String::new(),
    }
}

/// What is said of a field that is not shown: of damaged text where, and nothing that it holds.
pub fn hidden(value: Value) -> String {
    match value {
        Value::Empty => String::new(),
        Value::BadText(byte) => format!("(hidden) text {}", fault::at(byte)),
        _ => "(hidden)".to_string(),
    }
}

#[test]
fn days() {
    assert_eq!(day(0), "1970-01-01");
    assert_eq!(day(951_782_400), "2000-02-29");
    assert_eq!(time(951_868_799), "2000-02-29 23:59:59 UTC");
    assert_eq!(day(951_868_800), "2000-03-01");
    assert_eq!(time(u32::MAX), "2106-02-07 06:28:15 UTC");
}
