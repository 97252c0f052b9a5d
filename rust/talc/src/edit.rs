//! A body made of another: what is not asked for is copied field by field, with its fill.

use crate::random;
use crate::secret::Secret;
use crate::trouble::Trouble;
use std::path::Path;
use talcfeather::{fields, Builder, Field, Record, Refusal, BODY_MAX, END};

/// A field as it is to be; without data, it is to go.
pub struct Put {
    pub kind: u8,
    pub data: Option<Secret>,
}

impl Put {
    pub fn new(kind: u8, data: impl AsRef<[u8]>) -> Put {
        Put { kind, data: Some(Secret(data.as_ref().to_vec())) }
    }

    fn data(&self) -> Option<&[u8]> {
        self.data.as_ref().map(|data| &data.0[..])
    }

    /// Whether a record has it otherwise. A field without data is as good as none.
    pub fn changes(&self, record: &Record) -> bool {
        let mut held = record.fields().filter(|field| field.kind == self.kind);
        match self.data() {
            None => held.any(|field| !field.data.is_empty()),
            data => held.next().map(|field| field.data) != data || held.next().is_some(),
        }
    }
}

/// What is to become of the records.
pub enum Edit {
    Keep,
    Add(Vec<Put>),
    /// The record with this number.
    Set(u64, Vec<Put>),
    Remove(u64),
}

type Random<'r> = &'r mut dyn FnMut(&mut [u8]);

/// A header or a record, its END among the fields. Of several fields of one type the first is set and
/// the others go: programs differ in which of them counts. What was not there comes before the END.
fn put_in(body: &mut Builder<Random>, section: &[Field], puts: &[Put]) -> Result<(), Refusal> {
    let mut missing: Vec<&Put> = puts.iter().collect();
    for field in section {
        let put = puts.iter().find(|put| put.kind == field.kind);
        let first = missing.iter().position(|put| put.kind == field.kind);
        match (put, first) {
            _ if field.kind == END => add_to(body, &missing)?,
            (Some(put), Some(at)) => {
                missing.remove(at);
                match put.data() {
                    Some(data) if data == field.data => body.copy(field)?,
                    Some(data) => body.add(put.kind, data)?,
                    None => {}
                }
                continue;
            }
            (Some(_), None) => continue,
            (None, _) => {}
        }
        body.copy(field)?;
    }
    Ok(())
}

fn add_to(body: &mut Builder<Random>, puts: &[&Put]) -> Result<(), Refusal> {
    let mut given = puts.iter().filter_map(|put| Some((put.kind, put.data()?)));
    given.try_for_each(|(kind, data)| body.add(kind, data))
}

fn build(
    body: &mut Builder<Random>,
    old: &[u8],
    header: &[Put],
    edit: &Edit,
) -> Result<(), Refusal> {
    let old = fields(old).collect::<Result<Vec<_>, _>>()?;
    let mut sections = old.split_inclusive(|field| field.kind == END);
    put_in(body, sections.next().unwrap_or_default(), header)?;
    for (number, record) in (0..).zip(sections) {
        match edit {
            Edit::Remove(which) if *which == number => {}
            Edit::Set(which, puts) if *which == number => put_in(body, record, puts)?,
            _ => put_in(body, record, &[])?,
        }
    }
    if let Edit::Add(puts) = edit {
        add_to(body, &puts.iter().collect::<Vec<_>>())?;
        body.end()?;
    }
    Ok(())
}

/// The bytes of a body, by a function that builds it; what it is refused for is told of the path.
fn built(
    path: &Path,
    build: impl FnOnce(&mut Builder<Random>) -> Result<(), Refusal>,
) -> Result<Secret, Trouble> {
    let mut buffer = Secret(vec![0; BODY_MAX]);
    let length = random::made(|random| {
        let mut body = Builder::new(&mut buffer.0, random);
        build(&mut body).map(|()| body.place())
    })?;
    buffer.shorten(length.map_err(|refusal| Trouble::refused(path, refusal))?);
    Ok(buffer)
}

/// The body with these fields in its header, and the edit done.
pub fn edited(path: &Path, old: &[u8], header: &[Put], edit: &Edit) -> Result<Secret, Trouble> {
    built(path, |body| build(body, old, header, edit))
}

/// The body of a new safe: a header alone.
pub fn empty(path: &Path, header: &[Put]) -> Result<Secret, Trouble> {
    built(path, |body| {
        add_to(body, &header.iter().collect::<Vec<_>>())?;
        body.end()
    })
}
