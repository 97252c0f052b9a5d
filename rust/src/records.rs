//! The records of a body, and what one holds.

use crate::fields::Fields;
use crate::{record, walk, Cursor, Field, Refusal, Uuid, Value, END};
use core::fmt;
use core::iter::FusedIterator;

/// One record of a body: its fields from the one after an END up to the next END.
///
/// In any bytes the last one may have no END: then it has the fields that can be walked, at least
/// one, and [`Record::end`] is none.
#[derive(Clone, Copy)]
pub struct Record<'b> {
    /// Its number, from 0.
    pub number: u64,
    /// The place of its first field.
    pub place: usize,
    /// The body up to where the record ends.
    body: &'b [u8],
}

/// The same number, place and bytes.
impl PartialEq for Record<'_> {
    fn eq(&self, other: &Record<'_>) -> bool {
        let at = (self.number, self.place) == (other.number, other.place);
        at && self.body.get(self.place..) == other.body.get(other.place..)
    }
}

impl Eq for Record<'_> {}

/// Shows where it is and no secret.
impl fmt::Debug for Record<'_> {
    fn fmt(&self, f: &mut fmt::Formatter<'_>) -> fmt::Result {
        f.debug_struct("Record")
            .field("number", &self.number)
            .field("place", &self.place)
            .finish_non_exhaustive()
    }
}

/// Walks from a cursor through the next END. The place after the last field that was walked; and,
/// where no END came, why.
fn through_end(body: &[u8], mut at: Cursor) -> (usize, Option<Refusal>) {
    loop {
        match walk(body, at) {
            Ok(Some((field, next))) if field.kind == END => return (next.place, None),
            Ok(Some((_, next))) => at = next,
            Ok(None) => return (at.place, Some(Refusal::Body)),
            Err(refusal) => return (at.place, Some(refusal)),
        }
    }
}

impl<'b> Record<'b> {
    /// The record that starts at a place; and, where it has no END, why.
    pub(crate) fn at(body: &'b [u8], number: u64, place: usize) -> (Record<'b>, Option<Refusal>) {
        let (end, refusal) = through_end(body, Cursor { place, in_record: true });
        (Record { number, place, body: body.get(..end).unwrap_or(body) }, refusal)
    }

    fn walked(&self) -> Fields<'b> {
        Fields { body: self.body, at: Some(Cursor { place: self.place, in_record: true }) }
    }

    /// Its fields in order, without the END.
    pub fn fields(&self) -> RecordFields<'b> {
        RecordFields(self.walked())
    }

    /// Its END; none where the body ends before one.
    pub fn end(&self) -> Option<Field<'b>> {
        self.walked().flatten().find(|field| field.kind == END)
    }

    /// Its first field of that type, or none.
    pub fn first(&self, kind: u8) -> Option<Field<'b>> {
        self.fields().find(|field| field.kind == kind)
    }

    /// The text of its first field of that type; none where there is no such field, or its value is
    /// no [`Value::Text`], such as an empty one.
    pub fn text(&self, kind: u8) -> Option<&'b str> {
        match self.first(kind)?.value {
            Value::Text(text) => Some(text),
            _ => None,
        }
    }

    /// Its UUID: that of its first field of type 01, if it has 16 bytes. In a well-formed body each
    /// record has one.
    pub fn uuid(&self) -> Option<Uuid> {
        match self.first(record::UUID)?.value {
            Value::Uuid(uuid) => Some(uuid),
            _ => None,
        }
    }
}

/// The fields of a record; [`Record::fields`] makes it.
#[derive(Clone, Debug)]
pub struct RecordFields<'b>(Fields<'b>);

impl<'b> Iterator for RecordFields<'b> {
    type Item = Field<'b>;

    /// The record's bytes end with its last field: nothing comes after its END.
    fn next(&mut self) -> Option<Field<'b>> {
        self.0.next()?.ok().filter(|field| field.kind != END)
    }
}

impl FusedIterator for RecordFields<'_> {}

/// The records of a body; [`records`] makes it.
#[derive(Clone)]
pub struct Records<'b> {
    body: &'b [u8],
    /// Number and place of the next record.
    number: u64,
    place: usize,
    /// To be told next: why what came last has no END.
    refusal: Option<Refusal>,
}

/// Shows where it stands and no secret.
impl fmt::Debug for Records<'_> {
    fn fmt(&self, f: &mut fmt::Formatter<'_>) -> fmt::Result {
        f.debug_struct("Records")
            .field("number", &self.number)
            .field("place", &self.place)
            .finish_non_exhaustive()
    }
}

/// The records of a body in order. Any bytes may be walked: after the header, which runs to the first
/// END, each record runs to one more. A record that has no END, which can only be the last, has the
/// fields that can be walked, and comes if there is at least one.
///
/// # Refusals
///
/// The last item, after every record, where the header or the last record has no END:
///
/// - [`Field`](Refusal::Field): what follows the fields so far is none, as [`walk`] says
/// - [`Body`](Refusal::Body): the body ends there
///
/// So one comes exactly where the body is not fields alone of which the last is an END. Whether it is
/// well formed otherwise is not asked: [`judge`](crate::judge) does.
///
/// ```
/// use talcfeather::{record, records, Builder, Refusal, Uuid};
///
/// let mut buffer = [0; 256];
/// let mut body = Builder::new(&mut buffer, |fill| fill.fill(0)); // at random, in a real file
/// body.add(0x00, [0x0e, 0x03])?;
/// body.end()?;
/// for (uuid, title) in [([7; 16], "Lathe"), ([8; 16], "Mill")] {
///     body.add(record::UUID, uuid)?;
///     body.add(record::TITLE, title)?;
///     body.add(record::PASSWORD, "x")?;
///     body.end()?;
/// }
/// let all = records(body.body()).collect::<Result<Vec<_>, _>>()?;
/// assert_eq!([all[0].text(record::TITLE), all[1].text(record::TITLE)], [Some("Lathe"), Some("Mill")]);
/// assert_eq!((all[1].number, all[1].place, all[1].uuid()), (1, 112, Some(Uuid([8; 16]))));
///
/// let mut cut = records(&body.body()[..160]); // the second has UUID and title alone
/// assert!(cut.next().expect("the first")?.end().is_some());
/// assert_eq!(cut.next().expect("the second")?.fields().count(), 2);
/// assert_eq!(cut.next().expect("a refusal").unwrap_err(), Refusal::Body);
/// assert!(cut.next().is_none());
/// # Ok::<(), Refusal>(())
/// ```
pub fn records(body: &[u8]) -> Records<'_> {
    let (place, refusal) = through_end(body, Cursor::START);
    Records { body, number: 0, place, refusal }
}

impl<'b> Iterator for Records<'b> {
    type Item = Result<Record<'b>, Refusal>;

    fn next(&mut self) -> Option<Self::Item> {
        if let Some(refusal) = self.refusal.take() {
            self.place = self.body.len();
            return Some(Err(refusal));
        }
        if self.place >= self.body.len() {
            return None;
        }
        let (record, refusal) = Record::at(self.body, self.number, self.place);
        (self.number, self.refusal) = (self.number + 1, refusal);
        if record.body.len() == self.place {
            return self.next();
        }
        self.place = record.body.len();
        Some(Ok(record))
    }
}

impl FusedIterator for Records<'_> {}
