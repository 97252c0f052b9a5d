//! The walk: one field after the other.

use crate::raw::{self, numbers};
use crate::{Refusal, Value};
use core::fmt;

/// The type of the field that ends the header and each record.
pub const END: u8 = 0xff;

/// Where a walk stands.
#[derive(Clone, Copy, Debug, PartialEq, Eq)]
pub struct Cursor {
    /// Offset of the next field's first byte.
    pub place: usize,
    /// Whether an END has been passed.
    pub in_record: bool,
}

impl Cursor {
    /// The start of a body.
    pub const START: Cursor = Cursor { place: 0, in_record: false };
}

/// One field of a body. Data, fill and text are the body's own bytes.
#[derive(Clone, Copy, PartialEq, Eq)]
pub struct Field<'b> {
    /// The type's number: one of [`header`](mod@crate::header) or [`record`](mod@crate::record), or
    /// [`END`], or another.
    pub kind: u8,
    /// Offset of the field's first byte in its body.
    pub place: usize,
    /// The data.
    pub data: &'b [u8],
    /// The bytes after the data, 0 to 15.
    pub fill: &'b [u8],
    /// What the data say.
    pub value: Value<'b>,
}

/// Of the data their length alone: they may be a password.
impl fmt::Debug for Field<'_> {
    fn fmt(&self, f: &mut fmt::Formatter<'_>) -> fmt::Result {
        f.debug_struct("Field")
            .field("kind", &self.kind)
            .field("place", &self.place)
            .field("length", &self.data.len())
            .field("value", &self.value)
            .finish_non_exhaustive()
    }
}

/// One field and the cursor after it, or none at the body's end. Any bytes may be walked, from any
/// cursor; [`fields`](crate::fields) goes on by itself.
///
/// # Refusals
///
/// The first that applies, in this order:
///
/// - [`Place`](Refusal::Place): the cursor's place is no multiple of 16, or over the body's length
/// - [`Field`](Refusal::Field): 1 to 15 bytes follow the place, or the field with its fill passes the
///   end, or it is an END with data
///
/// Nothing is written but the answer.
///
/// ```
/// use talcfeather::{walk, Cursor, Refusal, Value, END};
///
/// let body = [0, 0, 0, 0, END, 0, 0, 0, 0, 0, 0, 0, 0, 0, 0, 0];
/// let (field, next) = walk(&body, Cursor::START)?.expect("a field");
/// assert_eq!((field.kind, field.value), (END, Value::End));
/// assert_eq!(next, Cursor { place: 16, in_record: true });
/// assert_eq!(walk(&body, next), Ok(None));
/// assert_eq!(walk(&body, Cursor { place: 32, in_record: true }), Err(Refusal::Place));
/// # Ok::<(), Refusal>(())
/// ```
pub fn walk(body: &[u8], at: Cursor) -> Result<Option<(Field<'_>, Cursor)>, Refusal> {
    let mut answer = [0u8; 72];
    // Sound: the slices are lent for the call, and the answer has the size that the call sets.
    let number =
        unsafe { raw::talc_walk(body.as_ptr(), body.len(), at.place, at.in_record, &mut answer) };
    Refusal::outcome(number)?;
    let [what, next, in_record, kind, place, length, told @ ..] = numbers::<9>(&answer);
    if what == 0 {
        return Ok(None);
    }
    let (place, next) = (place as usize, next as usize);
    // A field that is not refused is within the body.
    let bytes = body.get(place.saturating_add(5)..next).ok_or(Refusal::Field)?;
    let (data, fill) = bytes.split_at_checked(length as usize).ok_or(Refusal::Field)?;
    let field = Field { kind: kind as u8, place, data, fill, value: Value::of(told, data) };
    Ok(Some((field, Cursor { place: next, in_record: in_record != 0 })))
}
