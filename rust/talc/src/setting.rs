//! A secret that is set: a new passphrase, or the password of a login.

use crate::arguments::{Arguments, Source};
use crate::secret::Secret;
use crate::trouble::Trouble;
use crate::{passphrase, prompt, wishes};
use talcfeather::PASSPHRASE_MAX;

/// What is set, where it comes from, and what it has to be.
pub struct Setting {
    source: Source,
    prompts: [&'static str; 2],
    options: &'static str,
    judge: fn(&[u8]) -> Result<(), Trouble>,
    given: Option<Secret>,
}

/// From one end to the other it is what a keyboard can type: else nobody would open the safe again.
fn judge_passphrase(passphrase: &[u8]) -> Result<(), Trouble> {
    let why = match passphrase {
        [] => "is empty: a safe needs one",
        [0xef, 0xbb, 0xbf, ..] => "starts with a byte order mark: save its file without",
        [.., b'\r'] => "ends in a carriage return: save its file with plain line ends",
        _ if passphrase.len() > PASSPHRASE_MAX => "is over 1,024 bytes: take a shorter one",
        _ if passphrase.iter().any(u8::is_ascii_control) => {
            "has control characters: leave them out"
        }
        _ => return Ok(()),
    };
    Err(Trouble::Given(format!("the new passphrase {why}")))
}

fn typed(prompt: &'static str, options: &str) -> Result<Secret, Trouble> {
    let mut line = prompt::ask(prompt, options)?;
    // Enter ended it.
    line.0.pop();
    Ok(line)
}

impl Setting {
    pub fn passphrase(arguments: &Arguments) -> Result<Setting, Trouble> {
        let file = arguments.value("--new-passphrase-file");
        Setting {
            source: file.map_or(Source::Terminal, |file| Source::File(file.into())),
            prompts: ["New passphrase: ", "New passphrase again: "],
            options: "--new-passphrase-file",
            judge: judge_passphrase,
            given: None,
        }
        .ahead()
    }

    pub fn password(arguments: &Arguments) -> Result<Setting, Trouble> {
        let stdin = arguments.has("--password-stdin");
        let source = match arguments.value("--password-file") {
            Some(_) if stdin => {
                return Err(Trouble::usage("the password can come from one place only"));
            }
            Some(file) => Source::File(file.into()),
            None if stdin => Source::Stdin,
            None => Source::Terminal,
        };
        if stdin && arguments.has("--passphrase-stdin") {
            return Err(Trouble::usage("standard input gives one secret only"));
        }
        Setting {
            source,
            prompts: ["New password: ", "New password again: "],
            options: "--password-file or --password-stdin",
            judge: wishes::judge_password,
            given: None,
        }
        .ahead()
    }

    /// What is in a file or comes from standard input is judged before anything is asked.
    fn ahead(mut self) -> Result<Setting, Trouble> {
        if !matches!(self.source, Source::Terminal) {
            let given = passphrase::get(&self.source)?;
            (self.judge)(&given.0)?;
            self.given = Some(given);
        }
        Ok(self)
    }

    /// What was given; else the terminal asks, twice.
    pub fn get(self) -> Result<Secret, Trouble> {
        if let Some(given) = self.given {
            return Ok(given);
        }
        let [first, again] = self.prompts;
        let secret = typed(first, self.options)?;
        (self.judge)(&secret.0)?;
        match typed(again, self.options)?.0 == secret.0 {
            true => Ok(secret),
            false => Err(Trouble::Given("the two differ, and nothing was written".to_string())),
        }
    }
}
