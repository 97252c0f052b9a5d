//! All ways in which the program can end otherwise than well, with their exit status.

use crate::show;
use std::cmp::Ordering;
use std::fmt;
use std::io;
use std::path::Path;
use talcfeather::{Refusal, STATE_SIZE};

#[derive(Debug)]
pub enum Trouble {
    /// The library's refusal of a file, and what to do; the status is its number.
    Refused(String, Refusal, String),
    /// 19: the file is no state, with its length.
    NoState(String, usize),
    /// 16: so many of so many traces were refused.
    Traces(usize, usize),
    /// 18: a login or a row that the table does not hold, in words.
    Table(String),
    /// 64: the arguments.
    Usage(String),
    /// 64: a value or a secret that is not stored as it is.
    Given(String),
    /// 66: a safe, passphrase, state, trace or table can't be read.
    Input(String),
    /// 67: no record is meant.
    NoRecord(String),
    /// 68: several records are meant, and told.
    Several(String),
    /// 70: written again, the file differs; this contradicts what is proved.
    Differs(String),
    /// 73: the new file can't be written.
    Create(String),
    /// 74: standard output can't be written to.
    Output(String),
    /// 75: another writes the safe.
    Locked(String),
    /// 77: given up at the passphrase.
    GivenUp,
}

impl Trouble {
    pub fn refused(path: &Path, refusal: Refusal) -> Trouble {
        Trouble::advised(path, refusal, advice(refusal).to_string())
    }

    /// With other advice than usual.
    pub fn advised(path: &Path, refusal: Refusal, advice: String) -> Trouble {
        Trouble::Refused(show::path(path), refusal, advice)
    }

    pub fn no_state(path: &Path, length: usize) -> Trouble {
        Trouble::NoState(show::path(path), length)
    }

    pub fn table(path: &Path, why: &str) -> Trouble {
        Trouble::Table(format!("{}: refused, 18: {why}", show::path(path)))
    }

    pub fn usage(message: impl Into<String>) -> Trouble {
        Trouble::Usage(message.into())
    }

    pub fn input(path: &Path, error: io::Error) -> Trouble {
        Trouble::Input(format!("{}: {error}", show::path(path)))
    }

    pub fn create(path: &Path, error: io::Error) -> Trouble {
        Trouble::Create(format!("{}: {error}", show::path(path)))
    }

    pub fn locked(path: &Path) -> Trouble {
        let message = "another program is writing it: try again when that is done";
        Trouble::Locked(format!("{}: {message}", show::path(path)))
    }

    pub fn output(error: io::Error) -> Trouble {
        Trouble::Output(format!("standard output: {error}"))
    }

    pub fn status(&self) -> u8 {
        match self {
            // Numbers of refusals are small; one that is not still must not look like success.
            Trouble::Refused(_, refusal, _) => u8::try_from(refusal.number()).unwrap_or(70),
            Trouble::NoState(..) => 19,
            Trouble::Traces(..) => 16,
            Trouble::Table(_) => 18,
            Trouble::Usage(_) | Trouble::Given(_) => 64,
            Trouble::Input(_) => 66,
            Trouble::NoRecord(_) => 67,
            Trouble::Several(_) => 68,
            Trouble::Differs(_) => 70,
            Trouble::Create(_) => 73,
            Trouble::Output(_) => 74,
            Trouble::Locked(_) => 75,
            Trouble::GivenUp => 77,
        }
    }
}

/// What the office can do, where the library's advice is for its callers.
pub fn advice(refusal: Refusal) -> &'static str {
    match refusal {
        Refusal::Length => "the file is cut or is no safe; copy it again",
        Refusal::Room => "the safe would be too long: keep less in one safe",
        Refusal::Iter => "save it with a current program",
        Refusal::Ceiling => "raise --ceiling if the file can be trusted",
        Refusal::Body => {
            "copy it again; if it stays, give every entry a title and a password, remove one that \
             is there twice, and save it again"
        }
        _ => refusal.advice(),
    }
}

/// What is wrong with a state file of that length.
fn no_state(length: usize) -> String {
    match length.cmp(&STATE_SIZE) {
        Ordering::Less => format!("it has {length} of {STATE_SIZE} bytes"),
        Ordering::Equal => "its bytes are damaged".to_string(),
        Ordering::Greater => format!("it has more than {STATE_SIZE} bytes"),
    }
}

impl fmt::Display for Trouble {
    fn fmt(&self, f: &mut fmt::Formatter<'_>) -> fmt::Result {
        match self {
            Trouble::Refused(path, refusal, advice) => {
                let (number, meaning) = (refusal.number(), refusal.meaning());
                write!(f, "{path}: refused, {number}: {meaning}: {advice}")
            }
            Trouble::NoState(path, length) => {
                write!(f, "{path}: refused, 19: this is no state: {}: ", no_state(*length))?;
                write!(f, "copy it again, or start a new one and replay all traces")
            }
            Trouble::Traces(refused, all) => {
                write!(
                    f,
                    "refused, 16: {refused} of {all} traces; nothing of a refused trace is "
                )?;
                write!(f, "taken: copy it again and replay it, unless the state is full")
            }
            Trouble::Usage(message) => write!(f, "{message}; try talc --help"),
            Trouble::GivenUp => write!(f, "given up"),
            Trouble::Table(message)
            | Trouble::Input(message)
            | Trouble::NoRecord(message)
            | Trouble::Several(message)
            | Trouble::Differs(message)
            | Trouble::Create(message)
            | Trouble::Given(message)
            | Trouble::Locked(message)
            | Trouble::Output(message) => write!(f, "{message}"),
        }
    }
}
