//! Fields: the walk, the values, append.

use crate::text::goes_wrong;

pub const END: u8 = 0xff;
pub const LONGEST_BODY: usize = 4_194_096;

#[derive(Clone, Copy, Debug, PartialEq, Eq)]
pub enum Value {
    Empty,
    End,
    Uuid(u64, u64),
    Time(u32),
    Number(u32),
    Flag(bool),
    Text,
    BadText(usize),
    Misshapen,
    Opaque,
}

#[derive(Clone, Copy, Debug, PartialEq, Eq)]
pub struct Cursor {
    pub place: usize,
    pub in_record: bool,
}

#[derive(Clone, Copy, Debug, PartialEq, Eq)]
pub struct Field {
    pub kind: u8,
    pub place: usize,
    pub length: usize,
    pub value: Value,
}

impl Field {
    pub fn data<'a>(&self, body: &'a [u8]) -> &'a [u8] {
        &body[self.place + 5..self.place + 5 + self.length]
    }
}

/// The bytes that a field with this much data takes: whole blocks that hold 5 more.
pub fn size(length: usize) -> usize {
    (length + 5).div_ceil(16) * 16
}

/// The fill that it needs.
pub fn fill_needed(length: usize) -> usize {
    size(length) - 5 - length
}

/// The bytes of one field.
pub fn stored(kind: u8, data: &[u8], fill: &[u8]) -> Vec<u8> {
    [&(data.len() as u32).to_le_bytes()[..], &[kind], data, fill].concat()
}

/// What a type's data should be.
enum Shape {
    Uuid,
    Time,
    /// A time of the header.
    Stamp,
    Number(usize),
    Flag,
    Text,
    Other,
}

fn shape(kind: u8, in_record: bool) -> Shape {
    match (in_record, kind) {
        (_, 0x01) => Shape::Uuid,
        (false, 0x04 | 0x13) => Shape::Stamp,
        (true, 0x07..=0x0a | 0x0c) => Shape::Time,
        (false, 0x00) => Shape::Number(2),
        (true, 0x13 | 0x17) => Shape::Number(2),
        (true, 0x11 | 0x19) => Shape::Number(4),
        (true, 0x15) => Shape::Flag,
        (false, 0x02 | 0x03 | 0x05..=0x0b | 0x0f..=0x11) => Shape::Text,
        (true, 0x02..=0x06 | 0x0d..=0x10 | 0x12 | 0x14 | 0x16 | 0x18 | 0x1c..=0x20) => Shape::Text,
        _ => Shape::Other,
    }
}

fn number(data: &[u8]) -> u64 {
    data.iter().rev().fold(0, |n, b| n << 8 | u64::from(*b))
}

/// A number in hex, highest digit first. `from_str_radix` takes a sign too, which is no digit.
fn of_digits(data: &[u8]) -> Option<u32> {
    let text = std::str::from_utf8(data).ok()?;
    text.chars().all(|c| c.is_ascii_hexdigit()).then(|| u32::from_str_radix(text, 16).ok())?
}

fn value(kind: u8, in_record: bool, data: &[u8]) -> Value {
    if kind == END {
        return Value::End;
    }
    if data.is_empty() {
        return Value::Empty;
    }
    match (shape(kind, in_record), data.len()) {
        (Shape::Uuid, 16) => Value::Uuid(number(&data[..8]), number(&data[8..])),
        (Shape::Time | Shape::Stamp, 4) => Value::Time(number(data) as u32),
        (Shape::Stamp, 8) => of_digits(data).map_or(Value::Misshapen, Value::Time),
        (Shape::Number(n), m) if n == m => Value::Number(number(data) as u32),
        (Shape::Flag, 1) => Value::Flag(data[0] != 0),
        (Shape::Text, _) => goes_wrong(data).map_or(Value::Text, Value::BadText),
        (Shape::Other, _) => Value::Opaque,
        _ => Value::Misshapen,
    }
}

/// One field and the next cursor, or none at the end.
pub fn walk(body: &[u8], at: Cursor) -> Result<Option<(Field, Cursor)>, u32> {
    if at.place % 16 != 0 || at.place > body.len() {
        return Err(11);
    }
    let rest = &body[at.place..];
    if rest.is_empty() {
        return Ok(None);
    }
    if rest.len() < 16 {
        return Err(14);
    }
    let length = number(&rest[..4]) as usize;
    let kind = rest[4];
    if size(length) > rest.len() || (kind == END && length > 0) {
        return Err(14);
    }
    let value = value(kind, at.in_record, &rest[5..5 + length]);
    let field = Field { kind, place: at.place, length, value };
    let next = Cursor { place: at.place + size(length), in_record: at.in_record || kind == END };
    Ok(Some((field, next)))
}

/// Writes one field at the place and answers the place after it.
pub fn append(
    buffer: &mut [u8],
    place: usize,
    kind: u8,
    data: &[u8],
    fill: &[u8],
) -> Result<usize, u32> {
    if place % 16 != 0 || place > buffer.len() {
        return Err(11);
    }
    if kind == END && !data.is_empty() {
        return Err(13);
    }
    if fill.len() != fill_needed(data.len()) {
        return Err(12);
    }
    let next = place + size(data.len());
    if next > buffer.len() || next > LONGEST_BODY {
        return Err(3);
    }
    buffer[place..next].copy_from_slice(&stored(kind, data, fill));
    Ok(next)
}

/// All fields of a body that divides exactly into fields.
pub fn all(body: &[u8]) -> Result<Vec<Field>, u32> {
    let mut at = Cursor { place: 0, in_record: false };
    let mut fields = Vec::new();
    while let Some((field, next)) = walk(body, at)? {
        fields.push(field);
        at = next;
    }
    Ok(fields)
}
