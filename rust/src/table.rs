//! The login table: export, import, and one row.

use crate::raw::{self, numbers};
use crate::{Refusal, Uuid, NO_EXPIRY, ROW_GROUP, ROW_SIZE, ROW_TITLE, ROW_USER};

/// What a row of a table says. The texts are the table's own.
#[derive(Clone, Copy, Debug, PartialEq, Eq)]
pub struct Row<'t> {
    /// As it is stored.
    pub uuid: Uuid,
    /// At most 80 bytes.
    pub title: &'t str,
    /// At most 80 bytes.
    pub user: &'t str,
    /// At most 72 bytes.
    pub group: &'t str,
    /// From the now of the export to the expiry, rounded down; [`NO_EXPIRY`] where there is none.
    pub days: i32,
}

impl Row<'_> {
    /// The days, or none where there is no expiry. Below 0 it had expired.
    pub fn expires_in(&self) -> Option<i32> {
        (self.days != NO_EXPIRY).then_some(self.days)
    }
}

/// Exports the logins of a body as a table, [`ROW_SIZE`] bytes for each record, and answers the
/// number of rows. `now` is in seconds since 1970-01-01. No password leaves. What is beyond the table
/// stays what it was.
///
/// # Refusals
///
/// The first that applies, in this order:
///
/// - [`Body`](Refusal::Body): the body is not well formed
/// - [`Table`](Refusal::Table): a login that a row does not hold, by a title or user name over 80
///   bytes, a group over 72, one of them BadText or with a zero byte in it, or a Misshapen expiry; with
///   the first such record, and its first such type of 03, 04, 02, 0a in this order
/// - [`Room`](Refusal::Room): the output is too short for the rows
///
/// The output is then what it was.
///
/// ```
/// use talcfeather::{export, import, record, row, Builder, Refusal, Row, Uuid, NO_EXPIRY};
///
/// let (mut buffer, lathe) = ([0; 112], Uuid([7; 16]));
/// let mut body = Builder::new(&mut buffer, |fill| fill.fill(0)); // at random, in a real file
/// body.add(0x00, [0x0e, 0x03])?;
/// body.end()?;
/// body.add(record::UUID, lathe)?;
/// body.add(record::TITLE, "Lathe")?;
/// body.add(record::PASSWORD, "x")?;
/// body.end()?;
///
/// let mut table = [0u8; 256];
/// assert_eq!(export(body.body(), 1_793_606_400, &mut table[1..]), Err(Refusal::Room));
/// assert_eq!(export(body.body(), 1_793_606_400, &mut table), Ok(1));
/// assert_eq!(import(&table), Ok(1));
/// let lathe = Row { uuid: lathe, title: "Lathe", user: "", group: "", days: NO_EXPIRY };
/// assert_eq!(row(&table, 0), Ok(Some(lathe)));
/// assert_eq!(lathe.expires_in(), None);
/// # Ok::<(), Refusal>(())
/// ```
pub fn export(body: &[u8], now: u32, output: &mut [u8]) -> Result<u64, Refusal> {
    let mut answer = [0u8; 24];
    let (length, start) = (output.len(), output.as_mut_ptr());
    // Sound: the output is lent mutably, so it does not overlap the body.
    let number =
        unsafe { raw::talc_export(body.as_ptr(), body.len(), now, start, length, &mut answer) };
    let [rows, record, field] = numbers(&answer);
    match Refusal::outcome(number) {
        Err(Refusal::Table { .. }) => {
            Err(Refusal::Table { number: record, field: Some(field as u8) })
        }
        outcome => outcome.map(|()| rows),
    }
}

/// The number of rows of a table.
///
/// # Refusals
///
/// - [`Table`](Refusal::Table): a row is cut, has a text that is BadText or has anything but zeros
///   after it, or a pad that is not zero; with the number of the first such row
///
/// Nothing is written but the answer.
///
/// ```
/// use talcfeather::{import, Refusal};
/// assert_eq!(import(&[]), Ok(0));
/// assert_eq!(import(&[0; 512]), Ok(2));
/// assert_eq!(import(&[0; 513]), Err(Refusal::Table { number: 2, field: None }));
/// ```
pub fn import(table: &[u8]) -> Result<u64, Refusal> {
    let mut answer = [0u8; 16];
    // Sound: the slice is lent for the call, and the answer has the size that the call sets.
    let number = unsafe { raw::talc_import(table.as_ptr(), table.len(), &mut answer) };
    let [rows, at_fault] = numbers(&answer);
    match Refusal::outcome(number) {
        Err(Refusal::Table { .. }) => Err(Refusal::Table { number: at_fault, field: None }),
        outcome => outcome.map(|()| rows),
    }
}

/// The row with that number, from 0, or none past the end. No other is looked at.
///
/// # Refusals
///
/// - [`Table`](Refusal::Table): this row is at fault, as [`import`] says; with its number
///
/// Nothing is written but the answer.
///
/// ```
/// use talcfeather::{row, Refusal};
/// let mut table = [0u8; 512];
/// table[16..21].copy_from_slice(b"Lathe");
/// table[511] = 1;
/// let lathe = row(&table, 0)?.expect("a row");
/// assert_eq!((lathe.title, lathe.expires_in()), ("Lathe", Some(0)));
/// assert_eq!(row(&table, 1), Err(Refusal::Table { number: 1, field: None }));
/// assert_eq!(row(&table, 2), Ok(None));
/// # Ok::<(), Refusal>(())
/// ```
pub fn row(table: &[u8], number: usize) -> Result<Option<Row<'_>>, Refusal> {
    let mut answer = [0u8; 56];
    // Sound: the slice is lent for the call, and the answer has the size that the call sets.
    let told = unsafe { raw::talc_row(table.as_ptr(), table.len(), number, &mut answer) };
    let at_fault = Refusal::Table { number: number as u64, field: None };
    match Refusal::outcome(told) {
        Err(Refusal::Table { .. }) => return Err(at_fault),
        outcome => outcome?,
    }
    let [there, first, second, title, user, group, days] = numbers(&answer);
    if there == 0 {
        return Ok(None);
    }
    // A row that is not refused has these bytes, and they are text.
    let text = |offset: usize, length: u64| {
        let room = table.get(number * ROW_SIZE + offset..).unwrap_or(&[]);
        let bytes = room.get(..length as usize).ok_or(at_fault)?;
        core::str::from_utf8(bytes).map_err(|_| at_fault)
    };
    Ok(Some(Row {
        uuid: Uuid::of_halves(first, second),
        title: text(ROW_TITLE, title)?,
        user: text(ROW_USER, user)?,
        group: text(ROW_GROUP, group)?,
        days: days as i32,
    }))
}
