//! The command line: words and options apart, and each where it belongs.

use crate::commands::{self, Command};
use crate::show;
use crate::trouble::Trouble;
use std::ffi::{OsStr, OsString};
use std::os::unix::ffi::OsStrExt;
use std::path::{Path, PathBuf};

/// Four times the largest number that Password Safe itself offers to set.
const CEILING: u32 = 16_777_216;

pub enum Source {
    Terminal,
    File(PathBuf),
    Stdin,
}

/// What stands behind an option.
#[derive(Clone, Copy, PartialEq)]
pub enum Value {
    None,
    File,
    Number,
}

/// Every option but those that go with all commands. Which commands take it, `commands::ALL` says.
pub const OPTIONS: &[(&str, Value)] = &[
    ("--passphrase-file", Value::File),
    ("--passphrase-stdin", Value::None),
    ("--new-passphrase-file", Value::File),
    ("--password-file", Value::File),
    ("--password-stdin", Value::None),
    ("--iter", Value::Number),
    ("--no-backup", Value::None),
    ("--state", Value::File),
    ("--now", Value::Number),
    ("--reveal", Value::None),
    ("--password", Value::None),
    ("--json", Value::None),
    ("--verbose", Value::None),
    ("--raw", Value::None),
    ("--ceiling", Value::Number),
];

/// What goes with all commands, and comes before them.
pub const ALWAYS: &[&str] = &["--help", "-h", "--version"];

/// A command, its words, and its options with their values; a value that is none is empty.
pub struct Arguments {
    pub command: &'static Command,
    words: Vec<OsString>,
    options: Vec<(&'static str, OsString)>,
}

/// What is asked for.
pub enum Asked {
    Help,
    Version,
    Command(Arguments),
}

impl Arguments {
    /// The word with that number, from 0; the command's own name is none.
    pub fn word(&self, number: usize) -> &OsStr {
        self.words.get(number).map_or(OsStr::new(""), OsString::as_os_str)
    }

    pub fn words(&self) -> &[OsString] {
        &self.words
    }

    pub fn path(&self, number: usize) -> &Path {
        Path::new(self.word(number))
    }

    pub fn value(&self, option: &str) -> Option<&OsStr> {
        let given = self.options.iter().find(|(name, _)| *name == option);
        given.map(|(_, value)| value.as_os_str())
    }

    pub fn has(&self, option: &str) -> bool {
        self.value(option).is_some()
    }

    /// The number behind an option that takes one; that it is one was asked when it was read.
    pub fn number(&self, option: &str) -> Option<u32> {
        self.value(option).and_then(number)
    }

    pub fn ceiling(&self) -> u32 {
        self.number("--ceiling").unwrap_or(CEILING)
    }

    pub fn source(&self) -> Source {
        match self.value("--passphrase-file") {
            Some(file) => Source::File(file.into()),
            None if self.has("--passphrase-stdin") => Source::Stdin,
            None => Source::Terminal,
        }
    }
}

fn number(text: &OsStr) -> Option<u32> {
    text.to_str().and_then(|text| text.parse().ok())
}

/// An option's name, and the value that stands behind it after `=`.
fn parted(argument: &OsStr) -> (&OsStr, Option<OsString>) {
    let bytes = argument.as_bytes();
    match bytes.iter().position(|byte| *byte == b'=') {
        Some(at) if bytes.starts_with(b"--") => {
            (OsStr::from_bytes(&bytes[..at]), Some(OsStr::from_bytes(&bytes[at + 1..]).into()))
        }
        _ => (argument, None),
    }
}

/// Words and options apart, before they are judged.
#[derive(Default)]
struct Sorted {
    words: Vec<OsString>,
    options: Vec<(&'static str, OsString)>,
    /// How many words came before `--`.
    before: Option<usize>,
}

impl Sorted {
    fn read(mut arguments: impl Iterator<Item = OsString>) -> Result<Sorted, Trouble> {
        let mut sorted = Sorted::default();
        while let Some(argument) = arguments.next() {
            if argument == "--" {
                sorted.before = Some(sorted.words.len());
                sorted.words.extend(arguments.by_ref());
            } else if argument.as_bytes().starts_with(b"-") && argument != "-" {
                sorted.option(&argument, || arguments.next())?;
            } else {
                sorted.words.push(argument);
            }
        }
        Ok(sorted)
    }

    fn option(
        &mut self,
        argument: &OsStr,
        next: impl FnOnce() -> Option<OsString>,
    ) -> Result<(), Trouble> {
        let (given, joined) = parted(argument);
        let always = ALWAYS.iter().map(|name| (*name, Value::None));
        let mut all = OPTIONS.iter().copied().chain(always);
        let Some((name, value)) = all.find(|(name, _)| given == *name) else {
            return Err(Trouble::usage(format!("there is no option {}", show::name(given))));
        };
        let value = match (value, joined) {
            (Value::None, None) => OsString::new(),
            (Value::None, Some(_)) => {
                return Err(Trouble::usage(format!("{name} takes no value")));
            }
            (_, joined) => joined
                .or_else(next)
                .ok_or_else(|| Trouble::usage(format!("{name} needs a value")))?,
        };
        if self.has(name) {
            return Err(Trouble::usage(format!("{name} is given twice")));
        }
        self.options.push((name, value));
        Ok(())
    }

    fn has(&self, option: &str) -> bool {
        self.options.iter().any(|(name, _)| *name == option)
    }

    fn command(&self) -> Result<&'static Command, Trouble> {
        let name = self.words.first().ok_or_else(|| Trouble::usage("no command given"))?;
        let command = commands::ALL.iter().find(|command| name == command.name);
        command.ok_or_else(|| Trouble::usage(format!("there is no command {}", show::name(name))))
    }

    /// Refuses words that are too few or too many, and options that the command would leave unused.
    fn fits(&self, command: &Command) -> Result<(), Trouble> {
        let (least, most) = command.bounds();
        if !(least..=most).contains(&(self.words.len() - 1)) {
            return Err(Trouble::usage(self.misfit(command)));
        }
        for (name, value) in &self.options {
            if !command.takes(name) {
                return Err(Trouble::usage(misfit(command, name)));
            }
            let is_number = OPTIONS.contains(&(name, Value::Number));
            if is_number && number(value).is_none() {
                let message = format!("{name} needs a number from 0 to 4294967295");
                return Err(Trouble::usage(message));
            }
        }
        if self.has("--passphrase-file") && self.has("--passphrase-stdin") {
            return Err(Trouble::usage("the passphrase can come from one place only"));
        }
        if self.has("--json") && self.has("--raw") {
            return Err(Trouble::usage("--json and --raw do not go together"));
        }
        self.piped(command)
    }

    /// Standard input is read for one purpose, by a command that takes a safe from there.
    fn piped(&self, command: &Command) -> Result<(), Trouble> {
        if self.words.get(1).is_none_or(|file| file != "-") {
            return Ok(());
        }
        if !commands::PIPED.contains(&command.name) {
            let message = "this command reads no standard input: a file of the name - is ./-";
            return Err(Trouble::usage(message));
        }
        if self.has("--passphrase-stdin") {
            let message = "standard input can't be both the safe and the passphrase";
            return Err(Trouble::usage(message));
        }
        Ok(())
    }
}

impl Sorted {
    /// How many words the command needs; and where an option was taken for one, why.
    fn misfit(&self, command: &Command) -> String {
        let needs = format!("{} needs {}", command.name, command.words.replace(' ', " and "));
        let behind = self.words.get(self.before.unwrap_or(self.words.len())..).unwrap_or(&[]);
        match behind.iter().find(|word| word.as_bytes().starts_with(b"-")) {
            Some(word) => {
                format!("{needs}: {} stands behind --, and is no option", show::name(word))
            }
            None if command.words.ends_with("ENTRY") && self.words.len() > 3 => {
                format!("{needs}: put an entry of several words in quotation marks")
            }
            None => needs,
        }
    }
}

/// With which commands the option goes; where these are many, that it does not with this one.
fn misfit(command: &Command, option: &str) -> String {
    const FEW: usize = 5;
    let takers = commands::ALL.iter().filter(|command| command.takes(option));
    let names: Vec<&str> = takers.map(|command| command.name).collect();
    match names.split_last() {
        Some((last, [])) => format!("{option} goes with {last} alone"),
        Some((last, rest)) if names.len() <= FEW => {
            format!("{option} goes with {} and {last} alone", rest.join(", "))
        }
        _ => format!("{option} does not go with {}", command.name),
    }
}

impl Asked {
    pub fn read(arguments: impl Iterator<Item = OsString>) -> Result<Asked, Trouble> {
        let mut sorted = Sorted::read(arguments)?;
        if sorted.has("--help") || sorted.has("-h") {
            return Ok(Asked::Help);
        }
        if sorted.has("--version") {
            return Ok(Asked::Version);
        }
        let command = sorted.command()?;
        sorted.fits(command)?;
        let words = sorted.words.split_off(1);
        Ok(Asked::Command(Arguments { command, words, options: sorted.options }))
    }
}
