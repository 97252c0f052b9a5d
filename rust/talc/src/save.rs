//! Saving a safe so that at any moment its name leads to the old file or to the new one, whole.

use crate::beside::{Beside, Like};
use crate::lock::Locked;
use crate::trouble::Trouble;
use crate::{files, written};
use std::ffi::OsString;
use std::fs;
use std::io::{self, ErrorKind};
use std::path::{Path, PathBuf};

/// What there is to say of a save that was done.
pub struct Saved {
    /// Where the old file stays.
    pub backup: Option<PathBuf>,
    /// Why the folder was not synced: should the power fail now, the old file may come back.
    pub unsynced: Option<io::Error>,
}

fn not_written(path: &Path, error: io::Error) -> Trouble {
    Trouble::Create(format!("{}: not written: {error}", written::path(path)))
}

/// A new file beside the target: on the disk, the same when read back, and opened by `opens`.
fn written(
    path: &Path,
    bytes: &[u8],
    locked: Option<&Locked>,
    opens: impl FnOnce(&[u8]) -> Result<(), Trouble>,
) -> Result<Beside, Trouble> {
    let target = locked.map_or(path, |locked| &locked.path);
    let like = locked.map(|locked| Like::all(&locked.held));
    let (new, back) =
        Beside::write(target, bytes, like).map_err(|error| not_written(path, error))?;
    if back != bytes {
        return Err(not_written(path, files::differs()));
    }
    opens(&back)?;
    Ok(new)
}

fn named_backup(target: &Path) -> PathBuf {
    let mut name = OsString::from(target);
    name.push(".bak");
    name.into()
}

/// Gives the old file its second name; where it can have none, a copy of it gets that name.
fn keep_old(locked: &Locked, old: &[u8]) -> io::Result<PathBuf> {
    let backup = named_backup(&locked.path);
    if fs::symlink_metadata(&backup).is_ok_and(|found| !found.is_file()) {
        let message = "is no regular file, and is not replaced: move it, or give --no-backup";
        return Err(io::Error::other(format!("{}: {message}", written::path(&backup))));
    }
    let old = match Beside::link(&locked.path) {
        Ok(link) => link,
        Err(_) => match Beside::write(&backup, old, Some(Like::all(&locked.held)))? {
            (copy, back) if back == old => copy,
            _ => return Err(files::differs()),
        },
    };
    old.rename(&backup)?;
    Ok(backup)
}

/// The old file's bytes, and whether it stays.
pub struct Old<'a> {
    pub bytes: &'a [u8],
    pub stays: bool,
}

/// Replaces a safe that is locked.
pub fn over(
    path: &Path,
    locked: &Locked,
    old: Old,
    bytes: &[u8],
    opens: impl FnOnce(&[u8]) -> Result<(), Trouble>,
) -> Result<Saved, Trouble> {
    let new = written(path, bytes, Some(locked), opens)?;
    let failed = |error| not_written(path, error);
    let backup = old.stays.then(|| keep_old(locked, old.bytes)).transpose().map_err(failed)?;
    new.rename(&locked.path).map_err(failed)?;
    Ok(Saved { backup, unsynced: files::sync_folder(&locked.path).err() })
}

/// Saves a new safe where nothing is.
pub fn new(
    path: &Path,
    bytes: &[u8],
    opens: impl FnOnce(&[u8]) -> Result<(), Trouble>,
) -> Result<Saved, Trouble> {
    let new = written(path, bytes, None, opens)?;
    new.rename_to_new(path).map_err(|error| match error.kind() {
        ErrorKind::AlreadyExists => taken(path),
        _ => not_written(path, error),
    })?;
    Ok(Saved { backup: None, unsynced: files::sync_folder(path).err() })
}

fn taken(path: &Path) -> Trouble {
    let message = "is there already, and a new safe replaces nothing: give another name";
    Trouble::Create(format!("{}: {message}", written::path(path)))
}

/// Refuses a name that something has, before anything is asked. What takes it later is seen when the
/// safe is saved.
pub fn must_be_new(path: &Path) -> Result<(), Trouble> {
    match fs::symlink_metadata(path) {
        Err(error) if error.kind() == ErrorKind::NotFound => Ok(()),
        Err(error) => Err(not_written(path, error)),
        Ok(_) => Err(taken(path)),
    }
}
