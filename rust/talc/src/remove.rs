//! `talc remove`: a login taken out.

use crate::arguments::Arguments;
use crate::changing::{self, Change, Decided};
use crate::commands::Said;
use crate::edit::Edit;
use crate::entry::Entry;
use crate::trouble::Trouble;
use crate::written;
use std::path::Path;
use talcfeather::{record, Opened, Record};

/// Refuses a record on whose password another rests, as an alias or a shortcut: that would be lost.
fn unneeded(path: &Path, opened: &Opened, record: &Record) -> Result<(), Trouble> {
    let uuid = record.uuid().unwrap_or_default();
    let forms = [format!("[[{uuid}]]"), format!("[~{uuid}~]")];
    let rests = |other: &Record| {
        let password = other.first(record::PASSWORD);
        password.is_some_and(|field| {
            forms.iter().any(|form| field.data.eq_ignore_ascii_case(form.as_bytes()))
        })
    };
    match opened.records().flatten().find(rests) {
        None => Ok(()),
        Some(other) => Err(Trouble::Create(format!(
            "{}: {} is needed: {} takes its password from it: remove that first, or set its password",
            written::path(path),
            changing::named(record),
            changing::named(&other)
        ))),
    }
}

pub fn run(arguments: &Arguments) -> Result<Said, Trouble> {
    let entry = Entry::of(arguments.word(1))?;
    changing::with(arguments, |opened, _| {
        let path = arguments.path(0);
        let record = entry.only(path, opened)?;
        changing::unprotected(path, &record)?;
        unneeded(path, opened, &record)?;
        let told = format!("removed {}", changing::named(&record));
        Ok(Decided::Change(Change { edit: Edit::Remove(record.number), passphrase: None, told }))
    })
}
