//! Reading a file once, and writing one without ever writing in place.

use crate::beside::{Beside, Like, NEW};
use crate::standard;
use crate::target::Target;
use crate::trouble::Trouble;
use std::fs::File;
use std::io::{self, Read};
use std::path::Path;

/// At most that many bytes: no more are needed to see that a file is too long.
pub fn read(path: &Path, limit: usize) -> Result<Vec<u8>, Trouble> {
    // All at once, so that no copy of a passphrase is left behind where the bytes grew.
    let mut bytes = Vec::with_capacity(limit);
    File::open(path)
        .and_then(|file| file.take(limit as u64).read_to_end(&mut bytes))
        .map_err(|error| Trouble::input(path, error))?;
    Ok(bytes)
}

pub fn read_stdin(limit: usize) -> Result<Vec<u8>, Trouble> {
    let mut bytes = Vec::with_capacity(limit);
    let read = standard::read(limit, &mut bytes);
    read.map_err(|error| Trouble::input(Path::new("standard input"), error))?;
    Ok(bytes)
}

/// Whether there is a file that may be replaced, or none. A link is not.
pub fn replaceable(path: &Path) -> Result<bool, Trouble> {
    Ok(Target::itself(path)?.held.is_some())
}

/// The folder's own record of the new name; not every file system can do this.
pub fn sync_folder(path: &Path) -> io::Result<()> {
    let folder = path.parent().filter(|folder| !folder.as_os_str().is_empty());
    File::open(folder.unwrap_or(Path::new("."))).and_then(|folder| folder.sync_all())
}

/// What was read back is not what was written.
pub fn differs() -> io::Error {
    io::Error::other("the disk gives back other bytes than it was given")
}

/// Writes a new file of mode 0600 beside the path, then gives it the path's name.
pub fn write(path: &Path, bytes: &[u8]) -> Result<(), Trouble> {
    let target = Target::of(path)?;
    let like = target.held.as_ref().map(|held| Like { mode: NEW, held });
    let written = Beside::write(&target.path, bytes, like);
    let renamed = written.and_then(|(new, back)| match back == bytes {
        true => new.rename(&target.path),
        false => Err(differs()),
    });
    renamed.map_err(|error| Trouble::create(path, error))?;
    // Where the folder can't be synced, a loss of power may bring the old file back: a whole one.
    let _ = sync_folder(&target.path);
    Ok(())
}
