//! What a field's data say.

use crate::Uuid;
use core::fmt;

/// What a field's data say, by its type.
///
/// Where a text goes wrong, here at its third byte:
///
/// ```
/// use talcfeather::{walk, Cursor, Value};
///
/// let title = *b"\x05\0\0\0\x03La\xffhe\0\0\0\0\0\0";
/// let (field, _) = walk(&title, Cursor { place: 0, in_record: true })?.expect("a field");
/// assert_eq!(field.value, Value::BadText(2));
/// assert_eq!(&field.data[..2], b"La");
/// # Ok::<(), talcfeather::Refusal>(())
/// ```
///
/// The same title in a body:
///
/// ```
/// use talcfeather::{records, Value};
///
/// let body = *b"\0\0\0\0\xff...........\x05\0\0\0\x03La\xffhe......\0\0\0\0\xff...........";
/// let title = records(&body).next().expect("a record")?.first(0x03).expect("a title");
/// assert_eq!(title.value, Value::BadText(2));
/// assert_eq!(&title.data[..2], b"La");
/// # Ok::<(), talcfeather::Refusal>(())
/// ```
///
/// The time of the last save, as Password Safe stored it before 3.09:
///
/// ```
/// use talcfeather::{append, fields, header, Value};
///
/// let mut body = [0; 16];
/// append(&mut body, 0, header::LAST_SAVE_TIME, b"4A5b6c7D", &[0; 3])?;
/// let saved = fields(&body).next().expect("a field")?;
/// assert_eq!(saved.value, Value::Time(0x4a5b_6c7d));
/// # Ok::<(), talcfeather::Refusal>(())
/// ```
#[derive(Clone, Copy, PartialEq, Eq)]
#[non_exhaustive]
pub enum Value<'b> {
    /// No data, and no END.
    Empty,
    /// The end of the header or of a record.
    End,
    /// 16 bytes.
    Uuid(Uuid),
    /// Seconds since 1970-01-01: 4 bytes; in types 04 and 13 of the header also eight hex digits of
    /// either case, highest first, as Password Safe stored them before 3.09.
    Time(u32),
    /// A number of 2 or 4 bytes.
    Number(u32),
    /// True if the byte is not zero.
    Flag(bool),
    /// Well-formed UTF-8 without a byte order mark or a final 00.
    Text(&'b str),
    /// A type that should be text, but is none. Where it goes wrong: the number of bytes of its longest
    /// start that is well-formed UTF-8; 0 where it starts with a byte order mark; its length less 1
    /// where only a final 00 offends. Where several apply, the smallest. Less than the length, always.
    BadText(usize),
    /// A type of fixed size, neither empty nor of its size; types 04 and 13 of the header also with 8
    /// bytes that are not all hex digits.
    Misshapen,
    /// Everything else.
    Opaque,
}

impl<'b> Value<'b> {
    /// By the kind of value, the value and its second half, as the walk tells them of these data.
    pub(crate) fn of([kind, value, second]: [u64; 3], data: &'b [u8]) -> Value<'b> {
        match kind {
            0 => Value::Empty,
            1 => Value::End,
            2 => Value::Uuid(Uuid::of_halves(value, second)),
            3 => Value::Time(value as u32),
            4 => Value::Number(value as u32),
            5 => Value::Flag(value != 0),
            6 => Value::text(data),
            7 => Value::BadText(value as usize),
            8 => Value::Misshapen,
            _ => Value::Opaque,
        }
    }

    /// What the walk tells as a text is one; Rust asks again.
    fn text(data: &'b [u8]) -> Value<'b> {
        match core::str::from_utf8(data) {
            Ok(text) => Value::Text(text),
            Err(error) => Value::BadText(error.valid_up_to()),
        }
    }
}

/// Of a text its length alone: it may be a password.
impl fmt::Debug for Value<'_> {
    fn fmt(&self, f: &mut fmt::Formatter<'_>) -> fmt::Result {
        match self {
            Value::Empty => f.write_str("Empty"),
            Value::End => f.write_str("End"),
            Value::Uuid(uuid) => write!(f, "Uuid({uuid})"),
            Value::Time(seconds) => write!(f, "Time({seconds})"),
            Value::Number(number) => write!(f, "Number({number})"),
            Value::Flag(flag) => write!(f, "Flag({flag})"),
            Value::Text(text) => write!(f, "Text({} bytes)", text.len()),
            Value::BadText(byte) => write!(f, "BadText({byte})"),
            Value::Misshapen => f.write_str("Misshapen"),
            Value::Opaque => f.write_str("Opaque"),
        }
    }
}
