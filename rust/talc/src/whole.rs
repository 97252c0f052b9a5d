//! `talc show`: every field of one entry, whole.

use crate::arguments::Arguments;
use crate::commands::Said;
use crate::entry::Entry;
use crate::json::{self, Json};
use crate::trouble::Trouble;
use crate::{fault, names, opening, show};
use std::io::IsTerminal;
use talcfeather::{record, Field, Record, Value};

#[derive(Clone, Copy)]
enum Form {
    Lines,
    Json,
    /// The password alone.
    Password,
}

pub fn run(arguments: &Arguments) -> Result<Said, Trouble> {
    let entry = Entry::of(arguments.word(1))?;
    let (form, reveal) = (form(arguments)?, arguments.has("--reveal"));
    opening::with(arguments, |closed, opened, _| {
        let record = entry.only(&closed.path, opened)?;
        Ok(match form {
            Form::Lines => lines(&record, reveal).into(),
            Form::Json => object(&record, reveal).lines().into(),
            Form::Password => password(&record).into(),
        })
    })
}

/// A password is shown to who asks for it, and goes to a file or pipe only where nothing else does.
fn form(arguments: &Arguments) -> Result<Form, Trouble> {
    let [password, reveal, json] = ["--password", "--reveal", "--json"].map(|o| arguments.has(o));
    let terminal = std::io::stdout().is_terminal();
    let wrong = match (password, reveal, json) {
        (true, true, _) => "--password and --reveal do not go together",
        (true, _, true) => "--password and --json do not go together: take --reveal",
        (true, ..) if terminal => {
            "--password is for a pipe or a file: at a terminal, give --reveal"
        }
        (_, true, false) if !terminal => {
            "--reveal is for a terminal: to a pipe or a file, --password gives the password alone"
        }
        (true, ..) => return Ok(Form::Password),
        (_, _, true) => return Ok(Form::Json),
        _ => return Ok(Form::Lines),
    };
    Err(Trouble::usage(wrong))
}

/// As it is stored, and a newline.
fn password(record: &Record) -> Vec<u8> {
    let data = record.first(record::PASSWORD).map_or(&[][..], |field| field.data);
    [data, b"\n"].concat()
}

fn lines(record: &Record, reveal: bool) -> String {
    let lines: String = record.fields().map(|field| line(&field, reveal)).collect();
    format!("record {}\n{lines}", record.number)
}

/// A field's name, and its value beside it. Of a text of several lines each is set in as the first is:
/// none looks like another field.
fn line(field: &Field, reveal: bool) -> String {
    const WIDE: usize = 27;
    let value = match names::is_secret(field.kind, true) && !reveal {
        true => vec![show::hidden(field.value)],
        false => value(field),
    };
    let names = [names::name(field.kind, true)].into_iter().chain(std::iter::repeat(""));
    let lines = names.zip(value).map(|(name, value)| match value.as_str() {
        "" => format!("{name}\n"),
        value => format!("{name:WIDE$}  {value}\n"),
    });
    lines.collect()
}

fn value(field: &Field) -> Vec<String> {
    let lines = |text: &str| {
        let lines = text.split('\n').map(|line| line.strip_suffix('\r').unwrap_or(line));
        lines.map(|line| show::text(line.as_bytes())).collect()
    };
    match field.value {
        Value::Text(text) => lines(text),
        Value::BadText(byte) => {
            vec![show::text(field.data), format!("(BadText: {})", fault::at(byte))]
        }
        Value::Opaque | Value::Misshapen => {
            vec![format!("({}, in hex) {}", show::kind(field.value), show::hex(field.data))]
        }
        _ => vec![show::value(field)],
    }
}

/// Keys of a login, and the types of field that they stand for.
const KEYS: [(&str, u8); 11] = [
    ("title", record::TITLE),
    ("user", record::USER),
    ("group", record::GROUP),
    ("url", record::URL),
    ("email", record::EMAIL),
    ("notes", record::NOTES),
    ("created", record::CREATION_TIME),
    ("password_modified", record::PASSWORD_MODIFICATION_TIME),
    ("modified", record::LAST_MODIFICATION_TIME),
    ("accessed", record::LAST_ACCESS_TIME),
    ("expires", record::PASSWORD_EXPIRY_TIME),
];

fn object(record: &Record, reveal: bool) -> Json {
    let mut members = vec![("record", Json::count(record.number))];
    members.push(("uuid", json::first(record, record::UUID)));
    members.extend(KEYS.map(|(key, kind)| (key, json::first(record, kind))));
    let password = if reveal { json::first(record, record::PASSWORD) } else { Json::Null };
    members.push(("password", password));
    let fields = record.fields().map(|field| json::field(&field, true, reveal));
    members.push(("fields", Json::List(fields.collect())));
    Json::Object(members)
}
