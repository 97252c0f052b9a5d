//! `talc`: reads Password Safe V3 files, replays traces and exports tables at a terminal, over the
//! proved library.

mod add;
mod arguments;
mod around;
mod beside;
mod changing;
mod check;
mod clock;
mod columns;
mod commands;
mod completion;
mod edit;
mod entry;
mod expiry;
mod explain;
mod fault;
mod fields;
mod files;
mod find;
mod json;
mod list;
mod lock;
mod names;
mod new;
mod opening;
mod passphrase;
mod progress;
mod prompt;
mod random;
mod rekey;
mod remove;
mod replay;
mod resave;
mod save;
mod secret;
mod set;
mod setting;
mod show;
mod stamps;
mod standard;
mod table;
mod target;
mod trouble;
mod who;
mod whole;
mod width;
mod wishes;
mod written;

use arguments::Asked;
use commands::Said;
use std::fmt::Display;
use std::io::{ErrorKind, Write};
use trouble::Trouble;

/// tools/man makes talc(1) from the same text.
pub const HELP: &str = include_str!("help.txt");
const VERSION: &str = concat!("talc ", env!("CARGO_PKG_VERSION"), "\n");

fn said() -> Result<Said, Trouble> {
    match Asked::read(std::env::args_os().skip(1))? {
        Asked::Help => Ok(HELP.to_string().into()),
        Asked::Version => Ok(VERSION.to_string().into()),
        Asked::Command(arguments) => (arguments.command.run)(&arguments),
    }
}

fn run() -> Result<(), Trouble> {
    let mut said = said()?;
    // A reader that has seen enough is no trouble.
    let written = standard::write(&said.output);
    // It may be a password.
    talcfeather::wipe(&mut said.output);
    match written {
        Err(error) if error.kind() != ErrorKind::BrokenPipe => return Err(Trouble::output(error)),
        _ => {}
    }
    if let Some(note) = said.note {
        tell(note);
    }
    said.ending
}

/// A line on standard error. If that can't be written to, the status still tells.
fn tell(line: impl Display) {
    let _ = writeln!(std::io::stderr(), "talc: {line}");
}

fn main() -> std::process::ExitCode {
    let Err(trouble) = run() else {
        return 0.into();
    };
    tell(&trouble);
    trouble.status().into()
}
