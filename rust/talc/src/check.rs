//! `talc check`: whether a file is accepted, and what it holds.

use crate::arguments::Arguments;
use crate::commands::Said;
use crate::json::Json;
use crate::opening::Closed;
use crate::trouble::Trouble;
use crate::{passphrase, show};
use std::path::Path;
use talcfeather::{Counts, Work};

type Outcome = Result<(Counts, Work), Trouble>;

/// What is refused is told as everywhere; as an object too.
pub fn run(arguments: &Arguments) -> Result<Said, Trouble> {
    let path = arguments.path(0);
    let outcome = check(arguments, path)?;
    if !arguments.has("--json") {
        return outcome.map(|counted| line(path, &counted).into());
    }
    let output = object(path, &outcome).lines().into_bytes();
    Ok(Said { output, note: None, ending: outcome.map(|_| ()) })
}

/// A passphrase that can't be read says nothing of the file.
fn check(arguments: &Arguments, path: &Path) -> Result<Outcome, Trouble> {
    let closed = match Closed::read(path, arguments.ceiling()) {
        Ok(closed) => closed,
        Err(trouble) => return Ok(Err(trouble)),
    };
    let passphrase = passphrase::get(&arguments.source())?;
    let mut workspace = closed.workspace();
    let opened = closed.open(&passphrase, &mut workspace);
    Ok(opened.map(|(opened, work)| (opened.counts, work)))
}

fn line(path: &Path, (counts, work): &(Counts, Work)) -> String {
    format!(
        "{}: accepted; header fields: {}, records: {}, compressions: {}, blocks: {}\n",
        show::path(path),
        counts.header_fields,
        counts.records,
        work.compressions,
        work.blocks
    )
}

fn object(path: &Path, outcome: &Outcome) -> Json {
    let (status, message) = match outcome {
        Ok(_) => (0, Json::Null),
        Err(trouble) => (trouble.status(), Json::Text(trouble.to_string())),
    };
    let count = |of: fn(&(Counts, Work)) -> u64| {
        Json::or_null(outcome.as_ref().ok().map(|counted| Json::count(of(counted))))
    };
    Json::Object(vec![
        ("file", Json::Text(path.to_string_lossy().into())),
        ("accepted", Json::Flag(outcome.is_ok())),
        ("status", Json::count(status)),
        ("message", message),
        ("header_fields", count(|(counts, _)| counts.header_fields)),
        ("records", count(|(counts, _)| counts.records)),
        ("compressions", count(|(_, work)| work.compressions)),
        ("blocks", count(|(_, work)| work.blocks)),
    ])
}
