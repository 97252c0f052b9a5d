//! `talc new`: a safe without a login.

use crate::arguments::Arguments;
use crate::changing;
use crate::commands::Said;
use crate::setting::Setting;
use crate::trouble::Trouble;
use crate::{around, clock, edit, random, save, stamps};

/// How often the passphrase of a new safe is stretched where nothing is given: what a new safe of
/// Password Safe has, and a part of a second's work.
const ITER: u32 = 262_144;

pub fn run(arguments: &Arguments) -> Result<Said, Trouble> {
    let (path, now) = (arguments.path(0), clock::now(arguments)?);
    let iter = around::iter(arguments)?.unwrap_or(ITER);
    save::must_be_new(path)?;
    let passphrase = Setting::passphrase(arguments)?.get()?;
    let uuid = random::made(random::uuid)?;
    let body = edit::empty(path, &stamps::of_new(uuid, now))?;
    let file = around::file(path, &passphrase, iter, &body.0)?;
    let opens = |back: &[u8]| around::opens(path, back, &passphrase, &body.0);
    let saved = save::new(path, &file, opens)?;
    Ok(changing::said(path, &format!("made; the passphrase is stretched {iter} times"), "", saved))
}
