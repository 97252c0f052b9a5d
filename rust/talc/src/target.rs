//! Where a file is written.

use crate::trouble::Trouble;
use crate::written;
use std::fs::Metadata;
use std::io::ErrorKind;
use std::path::{Path, PathBuf};

/// Where a file is written, and what is there now.
pub struct Target {
    /// What a link leads to, or the path itself.
    pub path: PathBuf,
    pub held: Option<Metadata>,
}

fn wrong(path: &Path, what: &str) -> Trouble {
    Trouble::Create(format!("{}: {what}, and is not replaced", written::path(path)))
}

/// The file that a link leads to: the link stays, and has to lead somewhere.
fn followed(path: &Path) -> Result<(PathBuf, Metadata), Trouble> {
    let led = path.canonicalize().and_then(|target| {
        let held = std::fs::metadata(&target)?;
        Ok((target, held))
    });
    led.map_err(|error| match error.kind() {
        ErrorKind::NotFound => wrong(path, "is a link that leads nowhere"),
        _ => Trouble::create(path, error),
    })
}

impl Target {
    /// A link is refused too: what it leads to is not meant to be replaced, nor the link.
    pub fn itself(path: &Path) -> Result<Target, Trouble> {
        match std::fs::symlink_metadata(path) {
            Ok(found) if found.is_symlink() => Err(wrong(path, "is no regular file")),
            _ => Target::of(path),
        }
    }

    /// A link is followed. What is no regular file is refused.
    pub fn of(path: &Path) -> Result<Target, Trouble> {
        let (target, held) = match std::fs::symlink_metadata(path) {
            Err(error) if error.kind() == ErrorKind::NotFound => {
                return Ok(Target { path: path.into(), held: None });
            }
            Err(error) => return Err(Trouble::create(path, error)),
            Ok(found) if found.is_symlink() => followed(path)?,
            Ok(found) => (path.into(), found),
        };
        match held.is_file() {
            true => Ok(Target { path: target, held: Some(held) }),
            false => Err(wrong(path, "is no regular file")),
        }
    }
}
