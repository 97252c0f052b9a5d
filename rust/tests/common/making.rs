//! make, started by a test.

use std::ffi::OsStr;
use std::path::Path;
use std::process::Command;

/// The variables that say where `make install` puts things.
pub const FOLDERS: [&str; 8] =
    ["PREFIX", "DESTDIR", "BINDIR", "LIBDIR", "INCLUDEDIR", "MANDIR", "PKGCONFIGDIR", "SHAREDIR"];

/// make in that folder, by itself.
pub fn make(folder: &Path) -> Command {
    alone("make", folder)
}

/// A program that starts make: what the make that runs the tests was told is not for that one.
pub fn alone(program: impl AsRef<OsStr>, folder: &Path) -> Command {
    let mut command = Command::new(program);
    for told in ["MAKEFLAGS", "MFLAGS", "MAKELEVEL", "MAKEFILES"].iter().chain(&FOLDERS) {
        command.env_remove(told);
    }
    command.current_dir(folder);
    command
}
