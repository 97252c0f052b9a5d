//! `talc set`: fields of a login changed.

use crate::arguments::Arguments;
use crate::changing::{self, Change, Decided};
use crate::commands::Said;
use crate::edit::{Edit, Put};
use crate::entry::Entry;
use crate::setting::Setting;
use crate::stamps;
use crate::trouble::Trouble;
use crate::wishes::{self, Wishes};
use talcfeather::record;

pub fn run(arguments: &Arguments) -> Result<Said, Trouble> {
    let entry = Entry::of(arguments.word(1))?;
    let mut wishes = Wishes::read(&arguments.words()[2..])?;
    let sources = ["--password-file", "--password-stdin"];
    let unused = sources.iter().find(|option| arguments.has(option) && !wishes.password);
    if let Some(option) = unused {
        return Err(Trouble::usage(format!("{option} goes with password: give that too")));
    }
    let password = wishes.password.then(|| Setting::password(arguments)).transpose()?;
    changing::with(arguments, |opened, now| {
        let path = arguments.path(0);
        let record = entry.only(path, opened)?;
        changing::unprotected(path, &record)?;
        if let Some(password) = password {
            wishes.puts.push(Put { kind: record::PASSWORD, data: Some(password.get()?) });
        }
        let named = changing::named(&record);
        let stamps = stamps::of_changed(&record, &wishes.puts, now);
        wishes.puts.retain(|put| put.changes(&record));
        if wishes.puts.is_empty() {
            return Ok(Decided::Nothing(format!("{named}: nothing to change; not written")));
        }
        let names: Vec<&str> =
            wishes.puts.iter().filter_map(|put| wishes::name(put.kind)).collect();
        let told = format!("{named}: changed {}", names.join(", "));
        let puts = wishes.puts.into_iter().chain(stamps).collect();
        Ok(Decided::Change(Change { edit: Edit::Set(record.number, puts), passphrase: None, told }))
    })
}
