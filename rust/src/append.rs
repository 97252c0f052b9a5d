//! Append: one field written.

use crate::raw::{self, numbers};
use crate::Refusal;

/// The fill that a field with this much data needs, in bytes: 0 to 15.
///
/// ```
/// assert_eq!([0, 11, 12, 27, 28].map(talcfeather::fill_needed), [11, 0, 15, 0, 15]);
/// ```
pub const fn fill_needed(data_len: usize) -> usize {
    15 - (data_len % 16 + 4) % 16
}

/// Writes one field into the buffer at the place, and answers the place after it. All other bytes of
/// the buffer stay. [`Builder`](crate::Builder) keeps the place and makes the fill.
///
/// The fill should come from a random source. The order of fields is the caller's;
/// [`judge`](crate::judge) says whether the whole is well formed.
///
/// # Refusals
///
/// The first that applies, in this order:
///
/// - [`Place`](Refusal::Place): the place is no multiple of 16, or over the buffer's length
/// - [`EndData`](Refusal::EndData): the type is [`END`](crate::END), and there are data
/// - [`Fill`](Refusal::Fill): the fill has not the length that [`fill_needed`] gives
/// - [`Room`](Refusal::Room): the field would end past the buffer, or past
///   [`BODY_MAX`](crate::BODY_MAX)
///
/// The buffer is then what it was.
///
/// ```
/// use talcfeather::{append, record};
///
/// let mut buffer = [0u8; 32];
/// let next = append(&mut buffer, 16, record::TITLE, b"Lathe", &[9; 6])?;
/// assert_eq!(next, 32);
/// assert_eq!(&buffer[16..], b"\x05\0\0\0\x03Lathe\x09\x09\x09\x09\x09\x09");
/// # Ok::<(), talcfeather::Refusal>(())
/// ```
pub fn append(
    buffer: &mut [u8],
    place: usize,
    kind: u8,
    data: &[u8],
    fill: &[u8],
) -> Result<usize, Refusal> {
    let mut next = [0u8; 8];
    // Sound: the buffer is lent mutably, so neither data nor fill overlap it.
    let number = unsafe {
        raw::talc_append(
            buffer.as_mut_ptr(),
            buffer.len(),
            place,
            kind,
            data.as_ptr(),
            data.len(),
            fill.as_ptr(),
            fill.len(),
            &mut next,
        )
    };
    Refusal::outcome(number)?;
    let [next] = numbers(&next);
    Ok(next as usize)
}
