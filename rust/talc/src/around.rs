//! A whole file around a body, with a salt, keys and an initial vector of its own.

use crate::arguments::Arguments;
use crate::secret::Secret;
use crate::trouble::Trouble;
use crate::{progress, random, written};
use std::path::Path;
use talcfeather::{Parts, Refusal, AROUND, ITER_MIN};

/// That an encrypted block equals the marker happens by chance once in 2^128 blocks.
const TRIES: usize = 3;

/// What `--iter` gives, if it is given.
pub fn iter(arguments: &Arguments) -> Result<Option<u32>, Trouble> {
    match arguments.number("--iter") {
        Some(iter) if iter < ITER_MIN => {
            Err(Trouble::usage(format!("--iter needs a number from {ITER_MIN} to {}", u32::MAX)))
        }
        iter => Ok(iter),
    }
}

fn written(
    passphrase: &Secret,
    iter: u32,
    body: &[u8],
    file: &mut [u8],
    random: &mut dyn FnMut(&mut [u8]),
) -> Result<usize, Refusal> {
    let mut parts = Parts::fresh(iter, &mut *random);
    for _ in 1..TRIES {
        match talcfeather::write(&passphrase.0, &parts, body, file) {
            Err(Refusal::Collision) => random(&mut parts.iv),
            outcome => return outcome,
        }
    }
    talcfeather::write(&passphrase.0, &parts, body, file)
}

/// The bytes of the file. What may be written, the library decides.
pub fn file(path: &Path, passphrase: &Secret, iter: u32, body: &[u8]) -> Result<Vec<u8>, Trouble> {
    let mut file = vec![0; body.len() + AROUND];
    let what = format!("stretching the passphrase, {iter} rounds");
    let outcome = progress::during(&what, || {
        random::made(|random| written(passphrase, iter, body, &mut file, random))
    })?;
    outcome.map_err(|refusal| Trouble::refused(path, refusal))?;
    Ok(file)
}

/// Whether these bytes, read back, are a safe of that passphrase and body.
pub fn opens(path: &Path, back: &[u8], passphrase: &Secret, body: &[u8]) -> Result<(), Trouble> {
    let mut workspace = vec![0; back.len().saturating_sub(AROUND)];
    let opened = progress::during("opening what was written", || {
        talcfeather::read(back, &passphrase.0, u32::MAX, &mut workspace)
    });
    match opened {
        Ok(opened) if opened.body() == body => Ok(()),
        _ => {
            let message = "what was written does not open as what was to be written; not kept";
            Err(Trouble::Differs(format!("{}: {message}", written::path(path))))
        }
    }
}
