//! The format's own stamps: who saved the safe, when and with what, and when a record was changed.

use crate::edit::Put;
use crate::who;
use talcfeather::{header, record, Opened, Record, Uuid, Value};

const DAY: u32 = 86_400;
/// The format's longest interval, in days.
const LONGEST_INTERVAL: u32 = 3650;
/// The newest version of the format that is described: 3.47 brought it.
const VERSION: [u8; 2] = [0x0e, 0x03];

fn time(kind: u8, now: u32) -> Put {
    Put::new(kind, now.to_le_bytes())
}

fn what() -> Put {
    Put::new(header::WHAT_SAVED, concat!("talc ", env!("CARGO_PKG_VERSION")))
}

/// User and host in one, as before format 0302: first the length of the user's name.
fn who_of_old(user: &str, host: &str) -> Put {
    Put::new(header::WHO_SAVED, format!("{:04x}{user}{host}", user.chars().count()))
}

/// Of a header that is there. Time and program are always told; user and host where the header told
/// them before, so that it never tells of another save.
pub fn of_save(opened: &Opened, now: u32) -> Vec<Put> {
    let (user, host) = (who::user(), who::host());
    let who = [
        who_of_old(&user, &host),
        Put::new(header::SAVED_BY_USER, user),
        Put::new(header::SAVED_ON_HOST, host),
    ];
    let told = |put: &Put| opened.header().flatten().any(|field| field.kind == put.kind);
    let mut stamps = vec![time(header::LAST_SAVE_TIME, now), what()];
    stamps.extend(who.into_iter().filter(told));
    stamps
}

/// Of a passphrase that is set.
pub fn of_passphrase(now: u32) -> Put {
    time(header::MASTER_PASSWORD_CHANGE, now)
}

/// The fields of a new header.
pub fn of_new(uuid: Uuid, now: u32) -> Vec<Put> {
    vec![
        Put::new(header::VERSION, VERSION),
        Put::new(header::UUID, uuid),
        time(header::LAST_SAVE_TIME, now),
        what(),
        Put::new(header::SAVED_BY_USER, who::user()),
        Put::new(header::SAVED_ON_HOST, who::host()),
        of_passphrase(now),
    ]
}

/// Of a record that is new.
pub fn of_added(now: u32) -> Vec<Put> {
    let kinds =
        [record::CREATION_TIME, record::PASSWORD_MODIFICATION_TIME, record::LAST_MODIFICATION_TIME];
    kinds.map(|kind| time(kind, now)).into()
}

/// Of a record that these change.
pub fn of_changed(record: &Record, puts: &[Put], now: u32) -> Vec<Put> {
    let mut stamps = vec![time(record::LAST_MODIFICATION_TIME, now)];
    let password = puts.iter().find(|put| put.kind == record::PASSWORD);
    if password.is_some_and(|password| password.changes(record)) {
        stamps.push(time(record::PASSWORD_MODIFICATION_TIME, now));
        let expires = puts.iter().any(|put| put.kind == record::PASSWORD_EXPIRY_TIME);
        stamps.extend(next_expiry(record, now).filter(|_| !expires));
    }
    stamps
}

/// A password that expires every so many days does so again, counted from its change.
fn next_expiry(record: &Record, now: u32) -> Option<Put> {
    match record.first(record::PASSWORD_EXPIRY_INTERVAL)?.value {
        Value::Number(days @ 1..=LONGEST_INTERVAL) => {
            Some(time(record::PASSWORD_EXPIRY_TIME, now.saturating_add(days * DAY)))
        }
        _ => None,
    }
}
