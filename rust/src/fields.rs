//! The fields of a body, one after the other.

use crate::{walk, Cursor, Field, Refusal, END};
use core::fmt;
use core::iter::FusedIterator;

/// All fields of a body; [`fields`] makes it.
#[derive(Clone)]
pub struct Fields<'b> {
    pub(crate) body: &'b [u8],
    /// None once the end or a refusal has been told.
    pub(crate) at: Option<Cursor>,
}

/// The header's fields; [`header`](header()) makes it.
#[derive(Clone, Debug)]
pub struct Header<'b>(Fields<'b>);

/// All fields of a body in order, ENDs among them. Any bytes may be walked.
///
/// # Refusals
///
/// - [`Field`](Refusal::Field): what follows the fields so far is none, as [`walk`] says
///
/// It comes as the last item, after every field that can be walked; nothing comes after it.
///
/// ```
/// use talcfeather::{fields, Refusal, END};
///
/// let body = *b"\x02\0\0\0\0\x0e\x03.........\0\0\0\0\xff...........";
/// let kinds = |body| fields(body).map(|field| field.map(|field| field.kind)).collect::<Vec<_>>();
/// assert_eq!(kinds(&body), [Ok(0x00), Ok(END)]);
/// assert_eq!(kinds(&body[..20]), [Ok(0x00), Err(Refusal::Field)]);
/// assert_eq!(kinds(&[]), []);
/// ```
pub fn fields(body: &[u8]) -> Fields<'_> {
    Fields { body, at: Some(Cursor::START) }
}

/// The fields of a body's header in order, up to the first END, which is not among them.
///
/// # Refusals
///
/// The last item, after every field that can be walked, where no END comes:
///
/// - [`Field`](Refusal::Field): what follows the fields so far is none, as [`walk`] says
/// - [`Body`](Refusal::Body): the body ends there
///
/// ```
/// use talcfeather::{header, Refusal, Value};
///
/// let body = *b"\x02\0\0\0\0\x0e\x03.........\0\0\0\0\xff...........";
/// let values = |body| header(body).map(|field| field.map(|field| field.value)).collect::<Vec<_>>();
/// assert_eq!(values(&body), [Ok(Value::Number(0x030e))]);
/// assert_eq!(values(&body[..16]), [Ok(Value::Number(0x030e)), Err(Refusal::Body)]);
/// ```
pub fn header(body: &[u8]) -> Header<'_> {
    Header(fields(body))
}

/// Shows where it stands and no secret.
impl fmt::Debug for Fields<'_> {
    fn fmt(&self, f: &mut fmt::Formatter<'_>) -> fmt::Result {
        f.debug_struct("Fields").field("at", &self.at).finish_non_exhaustive()
    }
}

impl<'b> Iterator for Fields<'b> {
    type Item = Result<Field<'b>, Refusal>;

    fn next(&mut self) -> Option<Self::Item> {
        let step = walk(self.body, self.at.take()?).transpose()?;
        Some(step.map(|(field, next)| {
            self.at = Some(next);
            field
        }))
    }
}

impl FusedIterator for Fields<'_> {}

impl<'b> Iterator for Header<'b> {
    type Item = Result<Field<'b>, Refusal>;

    fn next(&mut self) -> Option<Self::Item> {
        self.0.at?;
        match self.0.next() {
            Some(Ok(field)) if field.kind == END => {
                self.0.at = None;
                None
            }
            None => Some(Err(Refusal::Body)),
            field => field,
        }
    }
}

impl FusedIterator for Header<'_> {}
