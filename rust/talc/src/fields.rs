//! `talc fields`: a line a field.

use crate::arguments::Arguments;
use crate::commands::Said;
use crate::json::{self, Json};
use crate::trouble::Trouble;
use crate::{names, opening, show};
use talcfeather::{Field, Opened, Record, Refusal, END};

pub fn run(arguments: &Arguments) -> Result<Said, Trouble> {
    opening::with(arguments, |closed, opened, _| {
        let shown = match arguments.has("--json") {
            true => object(opened).map(Json::lines),
            false => lines(opened),
        };
        Ok(shown.map_err(|refusal| closed.refused(refusal))?.into())
    })
}

fn lines(opened: &Opened) -> Result<String, Refusal> {
    let mut out = String::from("header\n");
    for field in opened.fields() {
        let field = field?;
        out += &line(&field, false);
        if field.kind == END {
            break;
        }
    }
    for record in opened.records() {
        out += &of_record(&record?);
    }
    Ok(out)
}

fn object(opened: &Opened) -> Result<Json, Refusal> {
    let header = opened.header().map(|field| Ok(json::field(&field?, false, false)));
    let record = |record: Record| {
        let fields = record.fields().map(|field| json::field(&field, true, false));
        let number = ("record", Json::count(record.number));
        Json::Object(vec![number, ("fields", Json::List(fields.collect()))])
    };
    let records = opened.records().map(|found| Ok(record(found?)));
    Ok(Json::Object(vec![
        ("header", Json::List(header.collect::<Result<_, _>>()?)),
        ("records", Json::List(records.collect::<Result<_, _>>()?)),
    ]))
}

pub fn of_record(record: &Record) -> String {
    let fields = record.fields().chain(record.end());
    let lines: String = fields.map(|field| line(&field, true)).collect();
    format!("record {}\n{lines}", record.number)
}

fn line(field: &Field, in_record: bool) -> String {
    let name = names::name(field.kind, in_record);
    let kind = show::kind(field.value);
    let (value, length) = match names::is_secret(field.kind, in_record) {
        true => (show::hidden(field.value), String::new()),
        false => (show::value(field), field.data.len().to_string()),
    };
    let (place, number) = (field.place, field.kind);
    let line = format!("{place:8}  {number:02x}  {name:27}  {length:>7}  {kind:9}  {value}");
    line.trim_end().to_string() + "\n"
}
