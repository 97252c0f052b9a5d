//! `talc table`: the logins of a safe exported; `talc rows`: a table shown.

use crate::arguments::Arguments;
use crate::columns::{self, Line};
use crate::commands::Said;
use crate::json::Json;
use crate::trouble::Trouble;
use crate::{clock, fault, files, opening, show};
use std::path::Path;
use talcfeather::{
    record, Field, Opened, Refusal, Row, Value, GROUP_ROOM, ROW_GROUP, ROW_PAD, ROW_SIZE,
    ROW_TITLE, ROW_USER, TITLE_ROOM, USER_ROOM,
};

/// The texts of a login: type, name, where a row has it, and its room.
const TEXTS: [(u8, &str, usize, usize); 3] = [
    (record::TITLE, "title", ROW_TITLE, TITLE_ROOM),
    (record::USER, "user name", ROW_USER, USER_ROOM),
    (record::GROUP, "group", ROW_GROUP, GROUP_ROOM),
];

fn read(path: &Path) -> Result<Vec<u8>, Trouble> {
    std::fs::read(path).map_err(|error| Trouble::input(path, error))
}

/// Refuses an OUT that is there and is no table: it may be the safe itself.
fn may_write(out: &Path) -> Result<(), Trouble> {
    if files::replaceable(out)? && talcfeather::import(&read(out)?).is_err() {
        let message = "is no table, and is not replaced: give another name";
        return Err(Trouble::Create(format!("{}: {message}", show::path(out))));
    }
    Ok(())
}

pub fn export(arguments: &Arguments) -> Result<Said, Trouble> {
    let out = arguments.path(1);
    may_write(out)?;
    opening::with(arguments, |closed, opened, _| {
        let now = clock::now(arguments)?;
        let rows = write(&closed.path, opened, now, out)?;
        let days = show::time(now);
        Ok(format!("{}: rows: {rows}, days from {days}\n", show::path(out)).into())
    })
}

/// Writes the table of a safe that was read, and tells how many rows it has.
fn write(path: &Path, opened: &Opened, now: u32, out: &Path) -> Result<u64, Trouble> {
    let mut table = vec![0; opened.counts.records as usize * ROW_SIZE];
    let rows = match talcfeather::export(opened.body(), now, &mut table) {
        Err(Refusal::Table { number, field: Some(kind) }) => {
            return Err(Trouble::table(path, &unfit(opened, number, kind)));
        }
        rows => rows.map_err(|refusal| Trouble::refused(path, refusal))?,
    };
    files::write(out, &table)?;
    Ok(rows)
}

/// The record, and what is wrong with its first field of that type, with what the office can do.
fn unfit(opened: &Opened, number: u64, kind: u8) -> String {
    let login = opened.records().flatten().find(|record| record.number == number);
    let first = |kind| login.and_then(|login| login.first(kind));
    let title = first(record::TITLE).map_or(String::new(), |field| show::short(field.data));
    let why = first(kind).map_or(String::new(), |field| unfit_field(&field));
    format!("record {number}, \"{title}\": {why}, and save the safe again")
}

fn unfit_field(field: &Field) -> String {
    let (data, length) = (field.data, field.data.len());
    let Some((_, name, _, room)) = TEXTS.iter().find(|text| text.0 == field.kind) else {
        return format!("its expiry has {length} bytes, not 4: set the expiry again");
    };
    if data.contains(&0) {
        format!("its {name} has a zero byte in it: type it again without")
    } else if let Value::BadText(byte) = field.value {
        format!("its {name} {}: type it again", fault::told(data, byte))
    } else {
        format!("its {name} has {length} bytes, and the table has room for {room}: shorten it")
    }
}

/// A line a row.
pub fn rows(arguments: &Arguments) -> Result<Said, Trouble> {
    let (path, raw) = (arguments.path(0), columns::raw(arguments)?);
    let table = read(path)?;
    let refused = |refusal| match refusal {
        Refusal::Table { number, .. } => Trouble::table(path, &at_fault(&table, number)),
        other => Trouble::refused(path, other),
    };
    talcfeather::import(&table).map_err(refused)?;
    let mut rows = Vec::new();
    while let Some(row) = talcfeather::row(&table, rows.len()).map_err(refused)? {
        rows.push(row);
    }
    if arguments.has("--json") {
        return Ok(Json::List(rows.iter().map(object).collect()).lines().into());
    }
    let lines: Vec<Line> = rows.iter().map(|row| line(row, raw)).collect();
    Ok(columns::told(&lines).into())
}

fn object(row: &Row) -> Json {
    let days = row.expires_in();
    Json::Object(vec![
        ("uuid", Json::Text(row.uuid.to_string())),
        ("title", Json::text(row.title)),
        ("user", Json::text(row.user)),
        ("group", Json::text(row.group)),
        ("days", Json::or_null(days.map(|days| Json::Number(days.into())))),
        ("expired", Json::Flag(days.is_some_and(|days| days < 0))),
    ])
}

fn line(row: &Row, raw: bool) -> Line {
    let written = |text: &str| if raw { text.into() } else { show::text(text.as_bytes()) };
    let texts = [row.title, row.user, row.group].map(written);
    let days = match row.expires_in() {
        None => "no expiry".to_string(),
        Some(days) if days < 0 => "expired".to_string(),
        Some(1) => "1 day".to_string(),
        Some(days) => format!("{days} days"),
    };
    let all = [row.uuid.to_string()].into_iter().chain(texts).chain([days]);
    all.map(String::into_bytes).collect()
}

/// The row at fault and, by its bytes, why.
fn at_fault(table: &[u8], number: u64) -> String {
    let row = table.chunks(ROW_SIZE).nth(number as usize).unwrap_or(&[]);
    let why = if row.len() < ROW_SIZE {
        format!("it is cut: {} of {ROW_SIZE} bytes", row.len())
    } else {
        let text = TEXTS.iter().find_map(|(_, name, start, room)| {
            text_at_fault(&row[*start..start + room]).map(|why| format!("its {name} {why}"))
        });
        let pad = row[ROW_PAD..].iter().any(|byte| *byte != 0);
        text.or_else(|| pad.then(|| "its pad is not zero".into())).unwrap_or_default()
    };
    let place = number.saturating_mul(ROW_SIZE as u64);
    format!("row {number}, at byte {place}: {why}: copy the table again, or export it again")
}

fn text_at_fault(room: &[u8]) -> Option<String> {
    let end = room.iter().position(|byte| *byte == 0).unwrap_or(room.len());
    let (text, after) = room.split_at(end);
    let wrong = fault::of_column(text).map(|byte| fault::told(text, byte));
    let more = || after.iter().any(|byte| *byte != 0).then(|| "has something after its end".into());
    wrong.or_else(more)
}

#[cfg(test)]
fn texts(line: Line) -> Vec<String> {
    line.into_iter().map(|text| String::from_utf8(text).unwrap()).collect()
}

#[test]
fn lines() {
    let line = |row: &Row| texts(line(row, false));
    let uuid = talcfeather::Uuid([7; 16]);
    let row = |days| Row { uuid, title: "a\u{1b}", user: "", group: "ä\\", days };
    let uuid = "07070707070707070707070707070707";
    assert_eq!(line(&row(5)), [uuid, "a\\u{1b}", "", "ä\\\\", "5 days"]);
    let words = [
        (i32::MIN, "expired"),
        (-1, "expired"),
        (0, "0 days"),
        (1, "1 day"),
        (i32::MAX - 1, "2147483646 days"),
        (i32::MAX, "no expiry"),
    ];
    for (days, word) in words {
        assert_eq!(line(&row(days))[4], word);
    }
}

#[test]
fn raw_lines() {
    let uuid = talcfeather::Uuid([7; 16]);
    let row = Row { uuid, title: "a\u{1b}", user: "", group: "ä\\", days: 5 };
    let uuid = "07070707070707070707070707070707";
    assert_eq!(texts(line(&row, true)), [uuid, "a\u{1b}", "", "ä\\", "5 days"]);
}
