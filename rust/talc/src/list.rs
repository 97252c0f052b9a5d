//! `talc list`: a line a login.

use crate::arguments::Arguments;
use crate::columns::{self, Line};
use crate::commands::Said;
use crate::json::{self, Json};
use crate::opening::Closed;
use crate::trouble::Trouble;
use crate::{passphrase, replay, show};
use std::path::Path;
use talcfeather::{record, Field, Opened, Record, Refusal, Value};

/// Of several fields of one type the first counts.
const COLUMNS: [u8; 4] = [record::TITLE, record::USER, record::GROUP, record::PASSWORD_EXPIRY_TIME];

/// The state is read before a passphrase is asked for.
pub fn run(arguments: &Arguments) -> Result<Said, Trouble> {
    let raw = columns::raw(arguments)?;
    let closed = Closed::read(arguments.path(0), arguments.ceiling())?;
    let state = arguments.value("--state").map(Path::new).map(replay::load).transpose()?;
    let passphrase = passphrase::get(&arguments.source())?;
    let mut workspace = closed.workspace();
    let (opened, _) = closed.open(&passphrase, &mut workspace)?;
    let (state, refused) = (state.as_deref(), |refusal| closed.refused(refusal));
    if arguments.has("--json") {
        return Ok(objects(&opened, state).map_err(refused)?.lines().into());
    }
    let lines = lines(&opened, state, raw).map_err(refused)?;
    Ok(columns::told(&lines).into())
}

/// A time of 0 means that the password does not expire.
fn shown(field: &Field, raw: bool) -> Vec<u8> {
    match field.value {
        Value::Time(0) | Value::Empty => Vec::new(),
        Value::Time(seconds) => show::day(seconds).into_bytes(),
        Value::Misshapen => b"?".to_vec(),
        _ => columns::text(field, raw),
    }
}

/// Title, user, group, expiry; and with a state, whether it is cancelled.
fn line(login: &Record, state: Option<&[u8]>, raw: bool) -> Result<Line, Refusal> {
    let column = |kind| login.first(kind).map_or(Vec::new(), |field| shown(&field, raw));
    let mut line = COLUMNS.map(column).to_vec();
    if let Some(state) = state {
        line.push(if cancelled(login, state)? { "cancelled" } else { "" }.into());
    }
    Ok(line)
}

fn cancelled(login: &Record, state: &[u8]) -> Result<bool, Refusal> {
    // A record has exactly one UUID.
    let uuid = login.uuid().unwrap_or_default();
    Ok(talcfeather::standing(state, uuid)?.cancelled)
}

fn lines(opened: &Opened, state: Option<&[u8]>, raw: bool) -> Result<Vec<Line>, Refusal> {
    opened.records().map(|login| line(&login?, state, raw)).collect()
}

/// Whether it is cancelled is null without a state.
fn object(login: &Record, state: Option<&[u8]>) -> Result<Json, Refusal> {
    let [title, user, group, expires] = COLUMNS.map(|kind| json::first(login, kind));
    let cancelled = state.map(|state| cancelled(login, state)).transpose()?;
    Ok(Json::Object(vec![
        ("record", Json::count(login.number)),
        ("uuid", json::first(login, record::UUID)),
        ("title", title),
        ("user", user),
        ("group", group),
        ("expires", expires),
        ("cancelled", Json::or_null(cancelled.map(Json::Flag))),
    ]))
}

fn objects(opened: &Opened, state: Option<&[u8]>) -> Result<Json, Refusal> {
    let objects = opened.records().map(|login| object(&login?, state));
    Ok(Json::List(objects.collect::<Result<_, _>>()?))
}
