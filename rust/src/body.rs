//! Well-formed bodies: their counts, and finding a record.

use crate::raw::{self, numbers};
use crate::{Record, Refusal, Uuid};

/// What a well-formed body holds.
#[derive(Clone, Copy, Debug, PartialEq, Eq)]
pub struct Counts {
    /// Header fields, the END not counted.
    pub header_fields: u64,
    /// Records.
    pub records: u64,
}

/// What a search came to.
#[derive(Clone, Copy, Debug, PartialEq, Eq)]
pub struct Search<'b> {
    /// The record, or none.
    pub found: Option<Record<'b>>,
    /// Fields from the body's start to the one that decided, it included: the record's UUID, or
    /// the last END. The header's fields and ENDs count, the test that the body is well formed
    /// does not. At most a sixteenth of the body's length.
    pub visited: u64,
}

/// The counts of a well-formed body. No two records of a well-formed body have the same UUID.
///
/// # Refusals
///
/// - [`Body`](Refusal::Body): it is not well formed
///
/// Nothing is written but the answer.
///
/// ```
/// let body = *b"\x02\0\0\0\0\x0e\x03.........\0\0\0\0\xff...........";
/// assert_eq!(talcfeather::judge(&body)?.header_fields, 1);
/// assert_eq!(talcfeather::judge(&body[..16]), Err(talcfeather::Refusal::Body));
/// # Ok::<(), talcfeather::Refusal>(())
/// ```
pub fn judge(body: &[u8]) -> Result<Counts, Refusal> {
    let mut answer = [0u8; 16];
    // Sound: the slice is lent for the call, and the answer has the size that the call sets.
    let number = unsafe { raw::talc_judge(body.as_ptr(), body.len(), &mut answer) };
    Refusal::outcome(number)?;
    let [header_fields, records] = numbers(&answer);
    Ok(Counts { header_fields, records })
}

/// The record with that UUID, or none; and how many fields were visited. It is the only one: a body
/// in which two records have the same UUID is refused, whatever is sought.
///
/// # Refusals
///
/// - [`Body`](Refusal::Body): the body is not well formed
///
/// Nothing is written but the answer.
///
/// ```
/// use talcfeather::{find, Search};
///
/// let body = *b"\x02\0\0\0\0\x0e\x03.........\0\0\0\0\xff...........";
/// assert_eq!(find(&body, &[7; 16]), Ok(Search { found: None, visited: 2 }));
/// ```
///
/// ```
/// use talcfeather::{find, record, Builder, Refusal, Uuid};
///
/// let (lathe, mill) = (Uuid([7; 16]), Uuid([8; 16]));
/// let mut buffer = [0; 192];
/// let mut body_of = |uuids: [Uuid; 2]| {
///     let mut body = Builder::new(&mut buffer, |fill| fill.fill(0)); // at random, in a real file
///     body.add(0x00, [0x0e, 0x03])?;
///     body.end()?;
///     for uuid in uuids {
///         body.add(record::UUID, uuid)?;
///         body.add(record::TITLE, "Lathe")?;
///         body.add(record::PASSWORD, "x")?;
///         body.end()?;
///     }
///     Ok(body.body().to_vec())
/// };
///
/// let body = body_of([lathe, mill])?;
/// let search = find(&body, mill)?;
/// assert_eq!(search.found.map(|record| (record.number, record.place)), Some((1, 112)));
/// assert_eq!(search.visited, 7);
/// assert!(find(&body, Uuid([9; 16]))?.found.is_none());
///
/// let body = body_of([mill, mill])?;
/// assert_eq!(find(&body, mill), Err(Refusal::Body));
/// assert_eq!(find(&body, lathe), Err(Refusal::Body));
/// # Ok::<(), Refusal>(())
/// ```
pub fn find(body: &[u8], uuid: impl Into<Uuid>) -> Result<Search<'_>, Refusal> {
    let (Uuid(uuid), mut answer) = (uuid.into(), [0u8; 32]);
    // Sound: the slices are lent for the call, and the answer has the size that the call sets.
    let number = unsafe { raw::talc_find(body.as_ptr(), body.len(), &uuid, &mut answer) };
    Refusal::outcome(number)?;
    let [found, record, place, visited] = numbers(&answer);
    let found = (found != 0).then(|| Record::at(body, record, place as usize).0);
    Ok(Search { found, visited })
}
