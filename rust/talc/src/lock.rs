//! One writer of a safe at a time.

use crate::target::Target;
use crate::trouble::Trouble;
use crate::written;
use std::fs::{File, Metadata, OpenOptions};
use std::io::{self, ErrorKind, Read};
use std::os::fd::AsRawFd;
use std::os::unix::fs::{MetadataExt, OpenOptionsExt};
use std::path::{Path, PathBuf};

extern "C" {
    fn flock(fd: i32, operation: i32) -> i32;
}

const EXCLUSIVE: i32 = 2;
const AT_ONCE: i32 = 4;
/// Of open: a device or FIFO that took the file's place is not waited for.
const NO_WAITING: i32 = 0o4000;
/// How often the file may be replaced while its lock is being taken.
const TRIES: usize = 100;

/// A file that is there, open and locked, and whose name leads to it. The lock ends with the process,
/// however that ends: nothing is left behind.
pub struct Locked {
    /// What a link leads to, where the path was one.
    pub path: PathBuf,
    pub held: Metadata,
    file: File,
}

/// The file is opened for writing, though it never is written in place: a network's file system
/// locks no other, and a file that is protected from writing is not replaced either.
fn open(path: &Path) -> io::Result<File> {
    OpenOptions::new().read(true).write(true).custom_flags(NO_WAITING).open(path)
}

fn same(a: &Metadata, b: &Metadata) -> bool {
    (a.dev(), a.ino()) == (b.dev(), b.ino())
}

impl Locked {
    /// Locks the file that the path leads to. Held by another is 75 at once.
    pub fn take(path: &Path) -> Result<Locked, Trouble> {
        for _ in 0..TRIES {
            let target = Target::of(path)?;
            if target.held.is_none() {
                return Err(Trouble::input(path, ErrorKind::NotFound.into()));
            }
            if let Some(locked) = Locked::once(path, target.path)? {
                return Ok(locked);
            }
        }
        Err(Trouble::locked(path))
    }

    /// None where another file has taken the name meanwhile: its writer had the lock before.
    fn once(path: &Path, target: PathBuf) -> Result<Option<Locked>, Trouble> {
        let file = match open(&target) {
            Err(error) if error.kind() == ErrorKind::NotFound => return Ok(None),
            file => file.map_err(|error| Trouble::create(path, error))?,
        };
        let held = file.metadata().map_err(|error| Trouble::input(path, error))?;
        // Sound: the file is open.
        if unsafe { flock(file.as_raw_fd(), EXCLUSIVE | AT_ONCE) } != 0 {
            return Err(match io::Error::last_os_error() {
                error if error.kind() == ErrorKind::WouldBlock => Trouble::locked(path),
                error => {
                    Trouble::Create(format!("{}: can't be locked: {error}", written::path(path)))
                }
            });
        }
        let named = std::fs::symlink_metadata(&target);
        let still = held.is_file() && named.is_ok_and(|named| same(&named, &held));
        Ok(still.then_some(Locked { path: target, held, file }))
    }

    /// What the file holds, at most that many bytes.
    pub fn read(&self, limit: usize) -> io::Result<Vec<u8>> {
        let mut bytes = Vec::with_capacity(limit);
        (&self.file).take(limit as u64).read_to_end(&mut bytes)?;
        Ok(bytes)
    }
}
