//! A UUID, as it is stored.

use core::fmt;
use core::str::FromStr;

/// The 16 bytes of a UUID, in the order in which they are stored. Prints as 32 hex digits; read from
/// 32 of either case, with or without hyphens, wherever these stand. [`find`](crate::find()),
/// [`standing`](crate::standing()) and [`trace_record`](crate::trace_record()) take the bytes too.
///
/// ```
/// use talcfeather::Uuid;
///
/// let lathe: Uuid = "62FC060B-9dcf-dd26-844f-36c7e392975f".parse()?;
/// assert_eq!(lathe.0[..4], [0x62, 0xfc, 0x06, 0x0b]);
/// assert_eq!(lathe.to_string(), "62fc060b9dcfdd26844f36c7e392975f");
/// assert_eq!("62fc".parse::<Uuid>(), Err(talcfeather::NoUuid));
/// # Ok::<(), talcfeather::NoUuid>(())
/// ```
#[derive(Clone, Copy, Default, PartialEq, Eq, PartialOrd, Ord, Hash)]
pub struct Uuid(pub [u8; 16]);

impl Uuid {
    /// Of two halves, each a number with the lowest byte first.
    pub(crate) fn of_halves(first: u64, second: u64) -> Uuid {
        let mut uuid = [0; 16];
        uuid[..8].copy_from_slice(&first.to_le_bytes());
        uuid[8..].copy_from_slice(&second.to_le_bytes());
        Uuid(uuid)
    }
}

impl fmt::Display for Uuid {
    fn fmt(&self, f: &mut fmt::Formatter<'_>) -> fmt::Result {
        self.0.iter().try_for_each(|byte| write!(f, "{byte:02x}"))
    }
}

impl fmt::Debug for Uuid {
    fn fmt(&self, f: &mut fmt::Formatter<'_>) -> fmt::Result {
        fmt::Display::fmt(self, f)
    }
}

/// The text is no UUID.
#[derive(Clone, Copy, Debug, PartialEq, Eq)]
pub struct NoUuid;

impl fmt::Display for NoUuid {
    fn fmt(&self, f: &mut fmt::Formatter<'_>) -> fmt::Result {
        f.write_str("a UUID is 32 hex digits, with or without hyphens")
    }
}

impl core::error::Error for NoUuid {}

impl FromStr for Uuid {
    type Err = NoUuid;

    fn from_str(text: &str) -> Result<Uuid, NoUuid> {
        let mut characters = text.chars().filter(|c| *c != '-');
        let mut digit = || characters.next().and_then(|c| c.to_digit(16)).ok_or(NoUuid);
        let mut uuid = Uuid::default();
        for byte in &mut uuid.0 {
            *byte = (digit()? * 16 + digit()?) as u8;
        }
        characters.next().map_or(Ok(uuid), |_| Err(NoUuid))
    }
}

impl From<[u8; 16]> for Uuid {
    fn from(bytes: [u8; 16]) -> Uuid {
        Uuid(bytes)
    }
}

impl From<&[u8; 16]> for Uuid {
    fn from(bytes: &[u8; 16]) -> Uuid {
        Uuid(*bytes)
    }
}

impl From<Uuid> for [u8; 16] {
    fn from(uuid: Uuid) -> [u8; 16] {
        uuid.0
    }
}

impl PartialEq<[u8; 16]> for Uuid {
    fn eq(&self, bytes: &[u8; 16]) -> bool {
        self.0 == *bytes
    }
}

impl PartialEq<Uuid> for [u8; 16] {
    fn eq(&self, uuid: &Uuid) -> bool {
        *self == uuid.0
    }
}

impl AsRef<[u8]> for Uuid {
    fn as_ref(&self) -> &[u8] {
        &self.0
    }
}
