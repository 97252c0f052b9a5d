//! The commands: what each needs, what it takes, and what it does.

use crate::arguments::Arguments;
use crate::trouble::Trouble;
use crate::{
    add, check, completion, explain, fields, find, list, new, rekey, remove, replay, resave, set,
    table, whole,
};

/// What there is to say, a line for standard error behind it, and how the run ends after both.
pub struct Said {
    pub output: Vec<u8>,
    pub note: Option<String>,
    pub ending: Result<(), Trouble>,
}

impl From<String> for Said {
    fn from(output: String) -> Said {
        output.into_bytes().into()
    }
}

impl From<Vec<u8>> for Said {
    fn from(output: Vec<u8>) -> Said {
        Said { output, note: None, ending: Ok(()) }
    }
}

pub struct Command {
    pub name: &'static str,
    /// What its words stand for, as in the help. Of the last there may be more where two dots follow.
    pub words: &'static str,
    /// The options that it takes, in groups.
    pub options: &'static [&'static [&'static str]],
    pub run: fn(&Arguments) -> Result<Said, Trouble>,
}

impl Command {
    /// How many words it needs at least and at most, its own name not counted.
    pub fn bounds(&self) -> (usize, usize) {
        let least = self.words.split(' ').count();
        (least, if self.words.ends_with("..") { usize::MAX } else { least })
    }

    pub fn takes(&self, option: &str) -> bool {
        self.options.iter().any(|group| group.contains(&option))
    }
}

/// Of every command that opens a safe.
pub const OPENING: &[&str] = &["--passphrase-file", "--passphrase-stdin", "--ceiling"];

/// Of every command that changes a safe.
pub const CHANGING: &[&str] = &["--now", "--no-backup"];
/// Of those that set a passphrase or a password.
pub const REKEYING: &[&str] = &["--new-passphrase-file", "--iter"];
pub const SETTING: &[&str] = &["--password-file", "--password-stdin"];
/// Those that take a safe from standard input, as the FILE `-`.
pub const PIPED: &[&str] = &["check", "list", "fields", "find", "show", "table"];

pub const ALL: &[Command] = &[
    Command { name: "check", words: "FILE", options: &[OPENING, &["--json"]], run: check::run },
    Command {
        name: "list",
        words: "FILE",
        options: &[OPENING, &["--state", "--json", "--raw"]],
        run: list::run,
    },
    Command { name: "fields", words: "FILE", options: &[OPENING, &["--json"]], run: fields::run },
    Command {
        name: "find",
        words: "FILE UUID",
        options: &[OPENING, &["--verbose"]],
        run: find::run,
    },
    Command {
        name: "show",
        words: "FILE ENTRY",
        options: &[OPENING, &["--reveal", "--password", "--json"]],
        run: whole::run,
    },
    Command { name: "resave", words: "FILE OUT", options: &[OPENING], run: resave::run },
    Command { name: "new", words: "FILE", options: &[REKEYING, &["--now"]], run: new::run },
    Command {
        name: "add",
        words: "FILE FIELD..",
        options: &[OPENING, CHANGING, SETTING],
        run: add::run,
    },
    Command {
        name: "set",
        words: "FILE ENTRY FIELD..",
        options: &[OPENING, CHANGING, SETTING],
        run: set::run,
    },
    Command {
        name: "remove",
        words: "FILE ENTRY",
        options: &[OPENING, CHANGING],
        run: remove::run,
    },
    Command {
        name: "passphrase",
        words: "FILE",
        options: &[OPENING, CHANGING, REKEYING],
        run: rekey::run,
    },
    Command { name: "replay", words: "STATE TRACE..", options: &[], run: replay::run },
    Command {
        name: "table",
        words: "FILE OUT",
        options: &[OPENING, &["--now"]],
        run: table::export,
    },
    Command { name: "rows", words: "TABLE", options: &[&["--json", "--raw"]], run: table::rows },
    Command { name: "explain", words: "N", options: &[], run: explain::run },
    Command { name: "completion", words: "SHELL", options: &[], run: completion::run },
];
