//! FIELD: what add and set are asked to store.

use crate::edit::Put;
use crate::trouble::Trouble;
use crate::{expiry, fault, written};
use std::ffi::{OsStr, OsString};
use std::os::unix::ffi::OsStrExt;
use talcfeather::record;

/// The fields that can be given, and their types.
const NAMES: [(&str, u8); 8] = [
    ("title", record::TITLE),
    ("user", record::USER),
    ("group", record::GROUP),
    ("notes", record::NOTES),
    ("url", record::URL),
    ("email", record::EMAIL),
    ("expires", record::PASSWORD_EXPIRY_TIME),
    ("password", record::PASSWORD),
];

/// The name of a field that can be given.
pub fn name(kind: u8) -> Option<&'static str> {
    NAMES.iter().find(|(_, known)| *known == kind).map(|(name, _)| *name)
}

/// What is asked for; a password alone is without its data so far.
#[derive(Default)]
pub struct Wishes {
    pub puts: Vec<Put>,
    pub password: bool,
}

impl Wishes {
    /// All is judged here, before anything is asked, stretched or written.
    pub fn read(words: &[OsString]) -> Result<Wishes, Trouble> {
        let mut wishes = Wishes::default();
        for word in words {
            let (name, value) = parted(word);
            let Some((name, kind)) = NAMES.iter().find(|(known, _)| name == known.as_bytes())
            else {
                return Err(unknown(name));
            };
            let again = match *kind {
                record::PASSWORD => std::mem::replace(&mut wishes.password, true),
                kind => wishes.puts.iter().any(|put| put.kind == kind),
            };
            if again {
                return Err(Trouble::usage(format!("{name} is given twice")));
            }
            match (*kind, value) {
                (record::PASSWORD, None) => {}
                (record::PASSWORD, Some(_)) => return Err(seen_by_others()),
                (_, None) => {
                    return Err(Trouble::usage(format!("{name} needs a value: {name}=..")))
                }
                (kind, Some(value)) => wishes.puts.push(put(name, kind, value)?),
            }
        }
        Ok(wishes)
    }

    pub fn has(&self, kind: u8) -> bool {
        self.puts.iter().any(|put| put.kind == kind)
    }
}

fn parted(word: &OsStr) -> (&[u8], Option<&[u8]>) {
    let bytes = word.as_bytes();
    match bytes.iter().position(|byte| *byte == b'=') {
        Some(at) => (&bytes[..at], Some(&bytes[at + 1..])),
        None => (bytes, None),
    }
}

fn unknown(name: &[u8]) -> Trouble {
    let names: Vec<&str> = NAMES.iter().map(|(name, _)| *name).collect();
    let name = written::short(name);
    Trouble::usage(format!("there is no field \"{name}\", but {}", names.join(", ")))
}

fn seen_by_others() -> Trouble {
    let why = "others can see what a command is given";
    let what = "give password alone, and it is asked for, or --password-file";
    Trouble::Given(format!("password=.. is not taken: {why}: {what}"))
}

/// A field with a value, or without data where the value is empty.
fn put(name: &str, kind: u8, value: &[u8]) -> Result<Put, Trouble> {
    let text = text(name, value, kind == record::NOTES)?;
    match kind {
        record::TITLE if text.trim().is_empty() => {
            Err(Trouble::Given("title is empty: every login needs one".to_string()))
        }
        record::PASSWORD_EXPIRY_TIME => expires(text),
        _ if text.is_empty() => Ok(Put { kind, data: None }),
        _ => Ok(Put::new(kind, text)),
    }
}

fn expires(text: &str) -> Result<Put, Trouble> {
    let kind = record::PASSWORD_EXPIRY_TIME;
    if ["", "never"].contains(&text) {
        return Ok(Put { kind, data: None });
    }
    let seconds = expiry::seconds(text).ok_or_else(|| {
        let message = "is no day from 1970-01-02 to 2106-02-07, as 2027-06-30 is, and not never";
        Trouble::Given(format!("expires: \"{}\" {message}", written::short(text.as_bytes())))
    })?;
    Ok(Put::new(kind, seconds.to_le_bytes()))
}

/// A text as the format has it, without control characters; new lines are allowed in notes.
fn text<'v>(name: &str, value: &'v [u8], lines: bool) -> Result<&'v str, Trouble> {
    let wrong = |why: String| Trouble::Given(format!("{name} {why}: give it without"));
    if let Some(byte) = fault::of_column(value) {
        return Err(wrong(fault::told(value, byte)));
    }
    let text = std::str::from_utf8(value).map_err(|error| wrong(fault::at(error.valid_up_to())))?;
    let steers = |(_, c): &(usize, char)| c.is_control() && !(lines && *c == '\n');
    match text.char_indices().find(steers) {
        Some((at, _)) => Err(wrong(format!("has a control character at byte {at} (from 0)"))),
        None => Ok(text),
    }
}

/// Whether a login can have that password. Of a wrong one no byte is told, and no copy is made.
pub fn judge_password(password: &[u8]) -> Result<(), Trouble> {
    let wrong = |why: &str| Err(Trouble::Given(format!("the password {why}")));
    match std::str::from_utf8(password) {
        Err(_) => wrong("is not UTF-8: give it as text in UTF-8"),
        Ok("") => wrong("is empty: every login needs one"),
        Ok(text) if text.starts_with('\u{feff}') => {
            wrong("starts with a byte order mark: save its file without")
        }
        Ok(text) if text.ends_with('\r') => {
            wrong("ends in a carriage return: save its file with plain line ends")
        }
        Ok(text) if text.contains(char::is_control) => {
            wrong("has control characters: give it without")
        }
        Ok(_) => Ok(()),
    }
}
