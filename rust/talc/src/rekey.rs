//! `talc passphrase`: a new passphrase for a safe.

use crate::arguments::Arguments;
use crate::changing::{self, Change, Decided};
use crate::commands::Said;
use crate::edit::Edit;
use crate::setting::Setting;
use crate::trouble::Trouble;

pub fn run(arguments: &Arguments) -> Result<Said, Trouble> {
    let setting = Setting::passphrase(arguments)?;
    changing::with(arguments, |_, _| {
        let (passphrase, told) = (Some(setting.get()?), "passphrase changed".to_string());
        Ok(Decided::Change(Change { edit: Edit::Keep, passphrase, told }))
    })
}
