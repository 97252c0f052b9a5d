//! The login table, row by row, by the request's own words.

use crate::body::well_formed;
use crate::fields::{Field, Value};
use crate::text::is_text;

pub const ROW: usize = 256;
const DAY: i64 = 86_400;
const NEVER: i32 = 2_147_483_647;

#[derive(Clone, Debug, PartialEq, Eq)]
pub struct Row {
    pub uuid: [u8; 16],
    pub title: String,
    pub user: String,
    pub group: String,
    pub days: i32,
}

#[derive(Clone, Copy, Debug, PartialEq, Eq)]
pub enum Refused {
    /// 9
    Body,
    /// 18, with the record's number and the field's type.
    Login(u64, u8),
    /// 3
    Room,
}

/// A text as a column of that room holds it.
fn fitting(data: &[u8], room: usize) -> Option<String> {
    let good = data.len() <= room && is_text(data) && !data.contains(&0);
    good.then(|| String::from_utf8(data.to_vec()).expect("text"))
}

/// The text of the record's first field of that type; else the type.
fn text(record: &[Field], body: &[u8], kind: u8, room: usize) -> Result<String, u8> {
    let data = record.iter().find(|f| f.kind == kind).map_or(&[][..], |f| f.data(body));
    fitting(data, room).ok_or(kind)
}

/// Rounded towards minus infinity.
pub fn days(expiry: u32, now: u32) -> i32 {
    let seconds = i64::from(expiry) - i64::from(now);
    i32::try_from(seconds.div_euclid(DAY)).expect("some 50,000 days at most")
}

fn days_of(record: &[Field], now: u32) -> Result<i32, u8> {
    match record.iter().find(|f| f.kind == 0x0a).map(|f| f.value) {
        None | Some(Value::Empty | Value::Time(0)) => Ok(NEVER),
        Some(Value::Time(expiry)) => Ok(days(expiry, now)),
        Some(_) => Err(0x0a),
    }
}

/// The row of a record, or the type of its first field at fault in the order of the columns.
fn row_of(record: &[Field], body: &[u8], now: u32) -> Result<Row, u8> {
    let uuid = record.iter().find(|f| f.kind == 0x01).expect("a UUID").data(body);
    Ok(Row {
        uuid: uuid.try_into().expect("of 16 bytes"),
        title: text(record, body, 0x03, 80)?,
        user: text(record, body, 0x04, 80)?,
        group: text(record, body, 0x02, 72)?,
        days: days_of(record, now)?,
    })
}

fn column(text: &str, room: usize) -> Vec<u8> {
    let mut bytes = text.as_bytes().to_vec();
    bytes.resize(room, 0);
    bytes
}

impl Row {
    pub fn stored(&self) -> Vec<u8> {
        let texts = [column(&self.title, 80), column(&self.user, 80), column(&self.group, 72)];
        [&self.uuid[..], &texts.concat(), &self.days.to_le_bytes(), &[0; 4]].concat()
    }

    /// What 256 bytes say; none if these are no row.
    fn read(bytes: &[u8]) -> Option<Row> {
        let bytes: &[u8; ROW] = bytes.try_into().ok()?;
        let (uuid, rest) = bytes.split_first_chunk()?;
        let (title, rest) = rest.split_at(80);
        let (user, rest) = rest.split_at(80);
        let (group, rest) = rest.split_at(72);
        let (days, pad) = rest.split_first_chunk()?;
        (pad == [0; 4]).then_some(Row {
            uuid: *uuid,
            title: text_in(title)?,
            user: text_in(user)?,
            group: text_in(group)?,
            days: i32::from_le_bytes(*days),
        })
    }
}

/// What stands before the first zero, if that is text and only zeros follow.
fn text_in(column: &[u8]) -> Option<String> {
    let end = column.iter().position(|byte| *byte == 0).unwrap_or(column.len());
    let (text, after) = column.split_at(end);
    fitting(text, column.len()).filter(|_| after.iter().all(|byte| *byte == 0))
}

/// The whole table, for an output of that many bytes.
pub fn export(body: &[u8], now: u32, room: usize) -> Result<Vec<u8>, Refused> {
    let (_, records) = well_formed(body).map_err(|_| Refused::Body)?;
    let mut table = Vec::new();
    for (number, record) in records.iter().enumerate() {
        let row = row_of(record, body, now);
        table.extend(row.map_err(|kind| Refused::Login(number as u64, kind))?.stored());
    }
    if table.len() > room {
        return Err(Refused::Room);
    }
    Ok(table)
}

/// All rows, or the number of the first that is at fault.
pub fn import(table: &[u8]) -> Result<Vec<Row>, u64> {
    let rows = table.chunks(ROW).enumerate();
    rows.map(|(number, bytes)| Row::read(bytes).ok_or(number as u64)).collect()
}

/// One row, or none past the end; its number if it is at fault.
pub fn row(table: &[u8], number: usize) -> Result<Option<Row>, usize> {
    table.chunks(ROW).nth(number).map(|bytes| Row::read(bytes).ok_or(number)).transpose()
}
