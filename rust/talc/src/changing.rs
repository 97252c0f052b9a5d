//! What every command does that changes a safe: lock, open, decide, write, save.

use crate::arguments::Arguments;
use crate::commands::Said;
use crate::edit::{self, Edit};
use crate::lock::Locked;
use crate::opening::Closed;
use crate::save::{self, Old, Saved};
use crate::secret::Secret;
use crate::trouble::Trouble;
use crate::{around, clock, passphrase, stamps, written};
use std::path::Path;
use talcfeather::{record, Opened, Parts, Record, Refusal, FILE_MAX};

/// What is to be done, and what there is to say of it.
pub struct Change {
    pub edit: Edit,
    /// None: it stays.
    pub passphrase: Option<Secret>,
    pub told: String,
}

/// What a command decides on, when the safe is open.
pub enum Decided {
    Change(Change),
    /// There is nothing to change, and nothing is written.
    Nothing(String),
}

/// Has the safe that is a command's first word changed as it decides, at that time.
pub fn with(
    arguments: &Arguments,
    decide: impl FnOnce(&Opened, u32) -> Result<Decided, Trouble>,
) -> Result<Said, Trouble> {
    let (path, now) = (arguments.path(0), clock::now(arguments)?);
    let given = around::iter(arguments)?;
    let locked = Locked::take(path)?;
    let bytes = locked.read(FILE_MAX + 1).map_err(|error| Trouble::input(path, error))?;
    let closed = Closed::of(path, bytes, arguments.ceiling())?;
    let passphrase = passphrase::get(&arguments.source())?;
    let mut workspace = closed.workspace();
    let (opened, _) = closed.open(&passphrase, &mut workspace)?;
    let change = match decide(&opened, now)? {
        Decided::Nothing(told) => return Ok(format!("{}: {told}\n", written::path(path)).into()),
        Decided::Change(change) => change,
    };
    let mut header = stamps::of_save(&opened, now);
    header.extend(change.passphrase.as_ref().map(|_| stamps::of_passphrase(now)));
    let body = edit::edited(path, opened.body(), &header, &change.edit)?;
    let iter = given.or(Parts::of(&closed.bytes, &opened).map(|parts| parts.iter));
    let iter = iter.ok_or_else(|| closed.refused(Refusal::Length))?;
    let under = if change.passphrase.is_some() { ", under the old passphrase," } else { "" };
    let passphrase = change.passphrase.unwrap_or(passphrase);
    let file = around::file(path, &passphrase, iter, &body.0)?;
    let old = Old { bytes: &closed.bytes, stays: !arguments.has("--no-backup") };
    let opens = |back: &[u8]| around::opens(path, back, &passphrase, &body.0);
    let saved = save::over(path, &locked, old, &file, opens)?;
    Ok(said(path, &change.told, under, saved))
}

/// What is said of a save; of the old file also what it is under.
pub fn said(path: &Path, told: &str, under: &str, saved: Saved) -> Said {
    let path = written::path(path);
    let kept =
        saved.backup.map(|backup| format!("; the old file{under} is {}", written::path(&backup)));
    let unsynced = |error| {
        format!(
            "{path}: saved, but the folder can't be synced: {error}: should the power fail \
                 now, the old file may come back"
        )
    };
    Said {
        output: format!("{path}: {told}{}\n", kept.unwrap_or_default()).into(),
        note: saved.unsynced.map(unsynced),
        ending: Ok(()),
    }
}

/// A record as it is told of.
pub fn named(record: &Record) -> String {
    let title =
        record.first(record::TITLE).map_or(String::new(), |title| written::short(title.data));
    format!("record {}, \"{title}\"", record.number)
}

/// Refuses a record that its safe protects: the format has it neither changed nor removed.
pub fn unprotected(path: &Path, record: &Record) -> Result<(), Trouble> {
    let protects = |byte: &u8| *byte != 0;
    let mut marks = record.fields().filter(|field| field.kind == record::PROTECTED);
    if marks.any(|mark| mark.data.iter().any(protects)) {
        let message = "is protected: end that first in the program that protected it";
        return Err(Trouble::Create(format!(
            "{}: {} {message}",
            written::path(path),
            named(record)
        )));
    }
    Ok(())
}
