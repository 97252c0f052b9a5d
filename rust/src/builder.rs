//! A body built field by field.

use crate::{append, fill_needed, Field, Refusal, END};

/// A body that is built in a lent buffer, field by field, from the buffer's start on.
///
/// Each new field's fill comes from `random`, which fills the bytes that it is handed: from a random
/// source, in a real file. The buffer is the caller's and holds what was built, passwords too, when
/// the builder is gone: [`wipe`](crate::wipe) it when done.
///
/// ```
/// use talcfeather::{fields, header, judge, record, Builder, Refusal, Uuid};
///
/// let mut buffer = [0; 112];
/// let mut body = Builder::new(&mut buffer, |fill| fill.fill(0)); // at random, in a real file
/// body.add(header::VERSION, [0x0e, 0x03])?;
/// body.end()?;
/// body.add(record::UUID, Uuid([7; 16]))?;
/// body.add(record::TITLE, "Lathe")?;
/// body.add(record::PASSWORD, "x")?;
/// assert_eq!(body.add(record::NOTES, [b'x'; 12]), Err(Refusal::Room));
/// body.end()?;
/// assert_eq!(judge(body.body())?.records, 1);
///
/// let mut copy = [0; 112];
/// let mut again = Builder::new(&mut copy, |_| {});
/// for field in fields(body.body()) {
///     again.copy(&field?)?;
/// }
/// assert_eq!(again.body(), body.body());
/// # Ok::<(), Refusal>(())
/// ```
pub struct Builder<'b, F> {
    buffer: &'b mut [u8],
    place: usize,
    random: F,
}

impl<'b, F: FnMut(&mut [u8])> Builder<'b, F> {
    /// Nothing built yet. What the buffer holds does not matter.
    pub fn new(buffer: &'b mut [u8], random: F) -> Builder<'b, F> {
        Builder { buffer, place: 0, random }
    }

    /// Adds a field of that type with these data: bytes, a text or a [`Uuid`](crate::Uuid); of a
    /// number its `to_le_bytes()`.
    ///
    /// # Refusals
    ///
    /// The first that applies, in this order:
    ///
    /// - [`EndData`](Refusal::EndData): the type is [`END`], and there are data
    /// - [`Room`](Refusal::Room): the field would end past the buffer, or past
    ///   [`BODY_MAX`](crate::BODY_MAX)
    ///
    /// Builder and buffer are then what they were; `random` may have been asked.
    pub fn add(&mut self, kind: u8, data: impl AsRef<[u8]>) -> Result<(), Refusal> {
        let data = data.as_ref();
        let mut fill = [0; 15];
        let fill = &mut fill[..fill_needed(data.len())];
        (self.random)(fill);
        self.put(kind, data, fill)
    }

    /// Adds an END. Refused as [`Builder::add`] is.
    ///
    /// # Refusals
    ///
    /// - [`Room`](Refusal::Room): it would end past the buffer, or past
    ///   [`BODY_MAX`](crate::BODY_MAX)
    ///
    /// Builder and buffer are then what they were.
    pub fn end(&mut self) -> Result<(), Refusal> {
        self.add(END, [])
    }

    /// Adds a field of another body with its own fill: the same bytes.
    ///
    /// # Refusals
    ///
    /// The first that applies, in this order; of a field that was walked, the last alone can:
    ///
    /// - [`EndData`](Refusal::EndData): the type is [`END`], and there are data
    /// - [`Fill`](Refusal::Fill): the fill has not the length that [`fill_needed`] gives
    /// - [`Room`](Refusal::Room): the field would end past the buffer, or past
    ///   [`BODY_MAX`](crate::BODY_MAX)
    ///
    /// Builder and buffer are then what they were.
    pub fn copy(&mut self, field: &Field<'_>) -> Result<(), Refusal> {
        self.put(field.kind, field.data, field.fill)
    }

    fn put(&mut self, kind: u8, data: &[u8], fill: &[u8]) -> Result<(), Refusal> {
        self.place = append(self.buffer, self.place, kind, data, fill)?;
        Ok(())
    }

    /// The place of the next field: the length of what was built.
    pub fn place(&self) -> usize {
        self.place
    }

    /// What was built. [`judge`](crate::judge) says whether it is well formed.
    pub fn body(&self) -> &[u8] {
        &self.buffer[..self.place]
    }
}
