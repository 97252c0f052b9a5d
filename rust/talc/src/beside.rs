//! A file beside another whose name it is to get.

use crate::random;
use std::ffi::{c_char, CString, OsString};
use std::fs::{self, File, Metadata, OpenOptions, Permissions};
use std::io::{self, ErrorKind, Read, Seek, Write};
use std::os::fd::AsRawFd;
use std::os::unix::ffi::OsStrExt;
use std::os::unix::fs::{fchown, MetadataExt, OpenOptionsExt, PermissionsExt};
use std::path::{Path, PathBuf};

extern "C" {
    fn posix_fadvise(fd: i32, start: i64, length: i64, advice: i32) -> i32;
    fn renameat2(at: i32, from: *const c_char, to_at: i32, to: *const c_char, flags: u32) -> i32;
}

const NOT_NEEDED: i32 = 4;
const FROM_HERE: i32 = -100;
const NO_REPLACING: u32 = 1;

/// The mode of a file that replaces none.
pub const NEW: u32 = 0o600;

/// What a new file is likened to: the one that it is to replace, and with which mode.
pub struct Like<'h> {
    pub held: &'h Metadata,
    pub mode: u32,
}

impl<'h> Like<'h> {
    pub fn all(held: &'h Metadata) -> Like<'h> {
        Like { held, mode: held.mode() }
    }
}

/// A name of a file in the target's folder. When it is dropped, the name is removed; what has got
/// another name before that stays.
pub struct Beside(PathBuf);

impl Drop for Beside {
    fn drop(&mut self) {
        let _ = fs::remove_file(&self.0);
    }
}

/// The target's own, hidden, and a random number: what a killed run left behind is in nobody's way.
fn name(target: &Path) -> io::Result<PathBuf> {
    let mut number = [0; 8];
    random::fill(&mut number)?;
    let mut name = OsString::from(".");
    name.push(target.file_name().ok_or(ErrorKind::IsADirectory)?);
    name.push(format!(".{:016x}.new", u64::from_le_bytes(number)));
    Ok(target.with_file_name(name))
}

/// Owner and group of the file that is to be replaced, and the mode, as far as this user may give
/// them. Where the group can't be the same, the mode gives it nothing.
fn liken(file: &File, like: Like) -> io::Result<()> {
    let (owner, group) = (Some(like.held.uid()), Some(like.held.gid()));
    let _ = fchown(file, owner, group).or_else(|_| fchown(file, None, group));
    let own = file.metadata()?;
    let kept = if own.gid() == like.held.gid() { 0o7777 } else { 0o7707 };
    let (mode, wanted) = (own.mode() & 0o7777, like.mode & kept);
    // A file system that has no modes of its own refuses to set them.
    if mode == wanted {
        return Ok(());
    }
    file.set_permissions(Permissions::from_mode(wanted))
}

/// What the disk has of a file that was synced: its pages in memory are given up first.
fn read_back(mut file: &File, length: usize) -> io::Result<Vec<u8>> {
    // Sound: the file is open. Where the advice is not taken, the pages are read.
    unsafe { posix_fadvise(file.as_raw_fd(), 0, 0, NOT_NEEDED) };
    let mut bytes = Vec::with_capacity(length + 1);
    file.rewind()?;
    file.take(length as u64 + 1).read_to_end(&mut bytes)?;
    Ok(bytes)
}

fn c_string(path: &Path) -> io::Result<CString> {
    CString::new(path.as_os_str().as_bytes()).map_err(io::Error::other)
}

impl Beside {
    /// A new file with these bytes, of mode 0600 until it is likened to the one that it is to
    /// replace; and what was read back of it.
    pub fn write(target: &Path, bytes: &[u8], like: Option<Like>) -> io::Result<(Beside, Vec<u8>)> {
        let path = name(target)?;
        let mut options = OpenOptions::new();
        options.read(true).write(true).create_new(true).mode(NEW);
        let mut file = options.open(&path)?;
        let beside = Beside(path);
        file.write_all(bytes)?;
        if let Some(like) = like {
            liken(&file, like)?;
        }
        file.sync_all()?;
        let back = read_back(&file, bytes.len())?;
        Ok((beside, back))
    }

    /// Another name of the file that is there.
    pub fn link(target: &Path) -> io::Result<Beside> {
        let path = name(target)?;
        fs::hard_link(target, &path)?;
        Ok(Beside(path))
    }

    /// Gives the file that name, and takes it from what had it.
    pub fn rename(self, to: &Path) -> io::Result<()> {
        fs::rename(&self.0, to)
    }

    /// Gives the file that name, which nothing must have. Where the file system has no such call, a
    /// link is made instead, and the name beside goes.
    pub fn rename_to_new(self, to: &Path) -> io::Result<()> {
        let (from, new) = (c_string(&self.0)?, c_string(to)?);
        // Sound: both end with a zero.
        let done = unsafe {
            renameat2(FROM_HERE, from.as_ptr(), FROM_HERE, new.as_ptr(), NO_REPLACING) == 0
        };
        match io::Error::last_os_error() {
            _ if done => Ok(()),
            error if matches!(error.kind(), ErrorKind::InvalidInput | ErrorKind::Unsupported) => {
                fs::hard_link(&self.0, to)
            }
            error => Err(error),
        }
    }
}
