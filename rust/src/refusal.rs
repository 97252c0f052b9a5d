//! The refusals, in words.

use core::fmt;
use core::mem::discriminant;

/// Why a call was refused. Prints its number, its meaning and what a person can do about it.
///
/// ```
/// let mut workspace = [0u8; 64];
/// let refusal = talcfeather::read(b"no safe", b"", 2048, &mut workspace).unwrap_err();
/// assert_eq!(refusal.number(), 1);
/// assert_eq!(refusal.meaning(), "no safe has a file or body of this length");
///
/// let refusal = talcfeather::append(&mut [], 0, 0x03, b"", &[0; 11]).unwrap_err();
/// assert_eq!(
///     refusal.to_string(),
///     "3: the lent memory is too short, or the field ends past the longest body: \
///      lend more, or keep less in one safe"
/// );
/// ```
#[derive(Clone, Copy, Debug, PartialEq, Eq)]
#[non_exhaustive]
pub enum Refusal {
    /// 1: the file or body has a length that no safe has.
    Length,
    /// 2: the passphrase is over 1,024 bytes.
    Passphrase,
    /// 3: the lent memory is too short, or (append) the field would end past the longest body.
    Room,
    /// 4: the file does not start with PWS3.
    Tag,
    /// 5: ITER is under 2,048.
    Iter,
    /// 6: ITER is above the caller's ceiling.
    Ceiling,
    /// 7: the marker is not where the file's length says.
    Marker,
    /// 8: not the passphrase of this file.
    Wrong,
    /// 9: the body is not well formed, as where two records have the same UUID, or (reading) the
    /// HMAC differs.
    Body,
    /// 10: an encrypted block equals the marker.
    Collision,
    /// 11: the place is no multiple of 16, or past the end.
    Place,
    /// 12: fill is not exactly the needed number of bytes.
    Fill,
    /// 13: END with data.
    EndData,
    /// 14: the field is cut or passes the end, or END with data.
    Field,
    /// 16: the record with this number, from 0, is the first of the trace that is cut, of an unknown
    /// kind, with a pad that is not zero, or of one UUID too many.
    Trace(u64),
    /// 18: the record with this number, from 0, is the first that a table does not hold, by the field
    /// of this type (export); or the row with this number is at fault (import, row: no field).
    Table {
        /// Of the record or row, from 0.
        number: u64,
        /// Type of the field: 03, 04, 02 or 0a.
        field: Option<u8>,
    },
    /// 19: the lent memory is no state.
    State,
    /// A number that this crate does not know: the archive is newer than it.
    Other(u32),
}

use Refusal::*;

/// A refusal's number, the refusal, its meaning and what to do about it.
type Told = (u32, Refusal, &'static str, &'static str);

const ALL: [Told; 17] = [
    (
        1,
        Length,
        "no safe has a file or body of this length",
        "take a whole file, or a body of 32 to 4,194,096 bytes in blocks of 16",
    ),
    (2, Passphrase, "the passphrase is over 1,024 bytes", "take a shorter one"),
    (
        3,
        Room,
        "the lent memory is too short, or the field ends past the longest body",
        "lend more, or keep less in one safe",
    ),
    (4, Tag, "this is no Password Safe V3 file", "choose a .psafe3 file"),
    (
        5,
        Iter,
        "the passphrase is stretched fewer than 2,048 times",
        "save the file with 2,048 or more",
    ),
    (
        6,
        Ceiling,
        "stretching would take longer than the ceiling allows",
        "raise the ceiling if the file can be trusted",
    ),
    (7, Marker, "the file is not whole", "copy it again"),
    (
        8,
        Wrong,
        "this is not the passphrase of the file",
        "type it again; if it is surely right, copy the file again",
    ),
    (
        9,
        Body,
        "the body is damaged, or breaks a rule of the format",
        "take another copy, or mend the body",
    ),
    (
        10,
        Collision,
        "an encrypted block equals the end marker",
        "write with another initial vector",
    ),
    (11, Place, "the place is no multiple of 16, or past the end", "start from the last answer"),
    (12, Fill, "the fill is not exactly what the field needs", "give the number of bytes it needs"),
    (13, EndData, "an END field cannot have data", "give it none"),
    (14, Field, "the field is cut, or is an END with data", "take the file's own body"),
    (
        16,
        Trace(0),
        "a record of the trace is at fault",
        "copy the trace again, unless it brings more logins than a state holds",
    ),
    (
        18,
        Table { number: 0, field: None },
        "a login that a table does not hold, or a row at fault",
        "mend that field of the login, or take another copy of the table",
    ),
    (
        19,
        State,
        "this is no state",
        "take the last whole copy, or a fresh one and all traces again",
    ),
];

impl Refusal {
    /// The number, as the library returns it.
    pub fn number(self) -> u32 {
        match self {
            Other(number) => number,
            _ => self.told().map_or(0, |told| told.0),
        }
    }

    /// The refusal with that number; none for 0. The numbers 16 and 18 alone do not tell which record
    /// or row: they give number 0.
    ///
    /// ```
    /// use talcfeather::Refusal;
    /// assert_eq!(Refusal::from_number(7), Some(Refusal::Marker));
    /// assert_eq!(Refusal::from_number(15), Some(Refusal::Other(15)));
    /// assert_eq!(Refusal::from_number(0), None);
    /// ```
    pub fn from_number(number: u32) -> Option<Refusal> {
        let told = ALL.iter().find(|told| told.0 == number);
        (number != 0).then(|| told.map_or(Other(number), |told| told.1))
    }

    /// By the variant alone: no record's number is in there.
    fn told(self) -> Option<&'static Told> {
        ALL.iter().find(|told| discriminant(&told.1) == discriminant(&self))
    }

    /// What is wrong.
    pub fn meaning(self) -> &'static str {
        self.told().map_or("a refusal that this program does not know", |told| told.2)
    }

    /// What a person can do about it.
    pub fn advice(self) -> &'static str {
        self.told().map_or("use a newer version of this program", |told| told.3)
    }

    /// The outcome for a number that a call returned.
    pub(crate) fn outcome(number: u32) -> Result<(), Refusal> {
        Refusal::from_number(number).map_or(Ok(()), Err)
    }
}

impl fmt::Display for Refusal {
    fn fmt(&self, f: &mut fmt::Formatter<'_>) -> fmt::Result {
        write!(f, "{}: {}", self.number(), self.meaning())?;
        if let Trace(number) | Table { number, .. } = self {
            write!(f, ", number {number}")?;
        }
        if let Table { field: Some(field), .. } = self {
            write!(f, ", field {field:02x}")?;
        }
        write!(f, ": {}", self.advice())
    }
}

impl core::error::Error for Refusal {}
