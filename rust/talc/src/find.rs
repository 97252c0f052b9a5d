//! `talc find`: the record with a UUID.

use crate::arguments::Arguments;
use crate::commands::Said;
use crate::opening::{self, Closed};
use crate::trouble::Trouble;
use crate::{fields, show};
use std::ffi::OsStr;
use talcfeather::{Opened, Uuid};

/// 32 hex digits, as stored, with or without hyphens.
fn uuid(word: &OsStr) -> Result<Uuid, Trouble> {
    let wrong = || Trouble::usage("a UUID is 32 hex digits, with or without hyphens");
    word.to_str().and_then(|word| word.parse().ok()).ok_or_else(wrong)
}

pub fn run(arguments: &Arguments) -> Result<Said, Trouble> {
    let uuid = uuid(arguments.word(1))?;
    opening::with(arguments, |closed, opened, _| {
        record(closed, opened, uuid, arguments.has("--verbose"))
    })
}

/// The record with that UUID, and its fields.
fn record(closed: &Closed, opened: &Opened, uuid: Uuid, verbose: bool) -> Result<Said, Trouble> {
    let search = opened.find(uuid).map_err(|refusal| closed.refused(refusal))?;
    let path = show::path(&closed.path);
    let note = verbose.then(|| format!("{path}: fields looked at: {}", search.visited));
    let none = || Trouble::NoRecord(format!("{path}: no record has that UUID"));
    Ok(match search.found {
        Some(record) => {
            Said { output: fields::of_record(&record).into_bytes(), note, ending: Ok(()) }
        }
        None => Said { output: Vec::new(), note, ending: Err(none()) },
    })
}
