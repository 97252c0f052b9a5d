//! `talc add`: a new login.

use crate::arguments::Arguments;
use crate::changing::{self, Change, Decided};
use crate::commands::Said;
use crate::edit::{Edit, Put};
use crate::setting::Setting;
use crate::trouble::Trouble;
use crate::wishes::Wishes;
use crate::{random, stamps, written};
use talcfeather::record;

pub fn run(arguments: &Arguments) -> Result<Said, Trouble> {
    let wishes = Wishes::read(&arguments.words()[1..])?;
    if !wishes.has(record::TITLE) {
        return Err(Trouble::usage("add needs a title: title=.."));
    }
    let password = Setting::password(arguments)?;
    changing::with(arguments, |opened, now| {
        let uuid = random::made(random::uuid)?;
        let mut puts = vec![Put::new(record::UUID, uuid)];
        puts.push(Put { kind: record::PASSWORD, data: Some(password.get()?) });
        puts.extend(wishes.puts);
        puts.extend(stamps::of_added(now));
        puts.sort_by_key(|put| put.kind);
        let title = puts.iter().find(|put| put.kind == record::TITLE);
        let title = title.and_then(|put| put.data.as_ref()).map(|title| written::short(&title.0));
        let number = opened.counts.records;
        let told = format!("added record {number}, \"{}\", {uuid}", title.unwrap_or_default());
        Ok(Decided::Change(Change { edit: Edit::Add(puts), passphrase: None, told }))
    })
}
