//! The well-formed body, its counts, the bytes that the HMAC covers, find.

use crate::fields::{all, Field, Value, END};
use std::collections::HashSet;

#[derive(Clone, Copy, Debug, PartialEq, Eq)]
pub struct Counts {
    pub header_fields: u64,
    pub records: u64,
}

#[derive(Clone, Copy, Debug, PartialEq, Eq)]
pub struct Found {
    pub record: u64,
    pub place: usize,
}

#[derive(Clone, Copy, Debug, PartialEq, Eq)]
pub struct Search {
    pub found: Option<Found>,
    pub visited: u64,
}

/// Header and records without their ENDs; none if the last field is no END.
fn parts(fields: &[Field]) -> Option<Vec<&[Field]>> {
    let (last, rest) = fields.split_last()?;
    (last.kind == END).then(|| rest.split(|f| f.kind == END).collect())
}

fn only(record: &[Field], kind: u8) -> Option<&Field> {
    let mut those = record.iter().filter(|f| f.kind == kind);
    those.next().filter(|_| those.next().is_none())
}

fn good_header(header: &[Field], body: &[u8]) -> bool {
    let once = |kind: u8| header.iter().filter(|f| f.kind == kind).count() <= 1;
    let starts_with_version =
        header.first().is_some_and(|f| f.kind == 0 && f.length == 2 && f.data(body)[1] == 3);
    starts_with_version && (0x00..=0x0b).chain([0x0f, 0x10, 0x13]).all(once)
}

fn good_record(record: &[Field]) -> bool {
    only(record, 0x01).is_some_and(|f| f.length == 16)
        && only(record, 0x03).is_some_and(|f| f.length >= 1)
        && only(record, 0x06).is_some_and(|f| f.length >= 1)
}

/// Whether no two of these records, each with its one UUID, have the same.
fn distinct(records: &[&[Field]], body: &[u8]) -> bool {
    let mut seen = HashSet::new();
    records.iter().filter_map(|r| only(r, 0x01)).all(|f| seen.insert(f.data(body)))
}

/// The fields of header and records of a well-formed body.
pub(crate) fn well_formed(body: &[u8]) -> Result<(Vec<Field>, Vec<Vec<Field>>), u32> {
    let fields = all(body).map_err(|_| 9u32)?;
    let parts = parts(&fields).ok_or(9u32)?;
    let (header, records) = parts.split_first().ok_or(9u32)?;
    let good_records = records.iter().all(|r| good_record(r)) && distinct(records, body);
    if !good_header(header, body) || !good_records {
        return Err(9);
    }
    Ok((header.to_vec(), records.iter().map(|r| r.to_vec()).collect()))
}

/// The counts of a well-formed body, or 9.
pub fn judge(body: &[u8]) -> Result<Counts, u32> {
    let (header, records) = well_formed(body)?;
    Ok(Counts { header_fields: header.len() as u64, records: records.len() as u64 })
}

/// The data of all fields in order.
pub fn covered(body: &[u8]) -> Vec<u8> {
    let fields = all(body).expect("a body that divides into fields");
    fields.iter().flat_map(|f| f.data(body)).copied().collect()
}

/// The number of fields from the body's start to the deciding field, it included: the matching UUID
/// of a record, or the last END.
fn visited(fields: &[Field], sought: Value) -> usize {
    let mut behind_header = fields.iter().enumerate().skip_while(|(_, f)| f.kind != END);
    let matching = behind_header.find(|(_, f)| f.value == sought).map(|(at, _)| at);
    let last_end = fields.iter().rposition(|f| f.kind == END);
    matching.or(last_end).map_or(0, |at| at + 1)
}

/// The only record with that UUID, and the fields visited.
pub fn find(body: &[u8], uuid: &[u8; 16]) -> Result<Search, u32> {
    let (_, records) = well_formed(body)?;
    let half = |i: usize| u64::from_le_bytes(uuid[i..i + 8].try_into().unwrap());
    let sought = Value::Uuid(half(0), half(8));
    let mut those = records.iter().enumerate().filter(|(_, r)| r.iter().any(|f| f.value == sought));
    let found = those.next().map(|(n, r)| Found { record: n as u64, place: r[0].place });
    assert!(those.next().is_none(), "two records of one UUID in a well-formed body");
    Ok(Search { found, visited: visited(&all(body)?, sought) as u64 })
}
