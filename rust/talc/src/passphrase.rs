//! Where the passphrase comes from.

use crate::arguments::Source;
use crate::secret::Secret;
use crate::trouble::Trouble;
use crate::{files, prompt};
use talcfeather::PASSPHRASE_MAX;

/// A newline and one byte too many: enough to see that a passphrase is too long.
const LIMIT: usize = PASSPHRASE_MAX + 2;

pub fn get(source: &Source) -> Result<Secret, Trouble> {
    let mut passphrase = match source {
        Source::File(path) => Secret(files::read(path, LIMIT)?),
        Source::Stdin => Secret(files::read_stdin(LIMIT)?),
        Source::Terminal => prompt::ask("Passphrase: ", "--passphrase-file or --passphrase-stdin")?,
    };
    if passphrase.0.last() == Some(&b'\n') {
        passphrase.0.pop();
    }
    Ok(passphrase)
}
