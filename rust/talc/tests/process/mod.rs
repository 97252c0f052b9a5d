//! `talc` as a process, in a folder of the test's own, and a safe for it.
#![allow(dead_code)]

pub mod json;
pub mod terminal;

use crate::common::bodies::{join, part, Part};
use crate::common::elsewhere::built;
use peer::body::covered;
use peer::fields::END;
use peer::hmac::hmac;
use peer::random::Random;
use peer::safe::{assemble, Parts};
use std::fs;
use std::io::Write;
use std::os::unix::process::CommandExt;
use std::path::{Path, PathBuf};
use std::process::{Output, Stdio};

extern "C" {
    pub fn setsid() -> i32;
    fn setrlimit(resource: i32, limit: *const [u64; 2]) -> i32;
    fn signal(number: i32, handler: usize) -> usize;
}

const LARGEST_FILE: i32 = 1;
const FILE_TOO_LARGE: i32 = 25;
const IGNORE: usize = 1;

/// A folder of this test's own, removed at its end.
pub struct Folder(pub PathBuf);

impl Folder {
    pub fn new(name: &str) -> Folder {
        let name = format!("talc-{name}-{}", std::process::id());
        let folder = std::env::temp_dir().join(name);
        fs::create_dir_all(&folder).unwrap();
        Folder(folder)
    }

    pub fn put(&self, name: &str, bytes: &[u8]) -> PathBuf {
        let path = self.0.join(name);
        fs::write(&path, bytes).unwrap();
        path
    }

    pub fn names(&self) -> Vec<String> {
        let entries = fs::read_dir(&self.0).unwrap();
        let mut names: Vec<String> =
            entries.map(|e| e.unwrap().file_name().into_string().unwrap()).collect();
        names.sort();
        names
    }
}

impl Drop for Folder {
    fn drop(&mut self) {
        let _ = fs::remove_dir_all(&self.0);
    }
}

pub struct Ended {
    pub status: i32,
    pub out: String,
    pub err: String,
}

/// Runs talc without a terminal, with that standard input.
pub fn talc(arguments: &[&str], stdin: &[u8]) -> Ended {
    let mut command = built(env!("CARGO_BIN_EXE_talc"));
    command.args(arguments).stdin(Stdio::piped()).stdout(Stdio::piped()).stderr(Stdio::piped());
    // A session of its own has no terminal.
    unsafe {
        command
            .pre_exec(|| if setsid() < 0 { Err(std::io::Error::last_os_error()) } else { Ok(()) })
    };
    let mut child = command.spawn().unwrap();
    // It may end without having read its input.
    let _ = child.stdin.take().unwrap().write_all(stdin);
    let output = child.wait_with_output().unwrap();
    let text = |bytes| String::from_utf8(bytes).unwrap();
    let ended = Ended {
        status: output.status.code().expect("no signal"),
        out: text(output.stdout),
        err: text(output.stderr),
    };
    assert!(!ended.err.contains("panicked"), "{}", ended.err);
    assert!(ended.status == 0 || !ended.err.is_empty(), "a status without a word");
    assert!(ended.err.lines().count() <= 2, "one clear line: {}", ended.err);
    ended
}

/// Runs talc without a terminal, with that passphrase.
pub fn talc_with(arguments: &[&str]) -> Ended {
    talc(&[arguments, &["--passphrase-stdin"]].concat(), PASSPHRASE)
}

/// Runs talc where no file can be longer than that.
pub fn talc_writing_at_most(bytes: u64, arguments: &[&str]) -> Output {
    let mut command = built(env!("CARGO_BIN_EXE_talc"));
    command.args(arguments).stdout(Stdio::piped()).stderr(Stdio::piped());
    unsafe {
        command.pre_exec(move || {
            signal(FILE_TOO_LARGE, IGNORE);
            match setrlimit(LARGEST_FILE, &[bytes, bytes]) {
                0 => Ok(()),
                _ => Err(std::io::Error::last_os_error()),
            }
        })
    };
    command.output().unwrap()
}

pub const PASSPHRASE: &[u8] = b"floor 2";
pub const UUID: &[u8] = b"\x01\x23\x45\x67\x89\xab\xcd\xef0123456\xff";

pub fn body() -> Vec<u8> {
    let fields = [
        part(0x00, &[0x0e, 0x03]),
        part(END, &[]),
        part(0x01, UUID),
        part(0x03, "Drehbank\t3\u{1b}[2J \\t ä".as_bytes()),
        part(0x03 + 1, b"worker"),
        part(0x02, b"Floor.Lathes"),
        part(0x0a, &1_900_000_000u32.to_le_bytes()),
        part(0x06, b"the password itself"),
        part(0x0f, b"1ff0100000000013an old password"),
        part(0x1b, b"two factor key"),
        part(END, &[]),
        part(0x06, b"another password"),
        part(0x03, b"Printer"),
        part(0x01, &[9; 16]),
        part(END, &[]),
    ];
    join(&mut Random(1), &fields)
}

/// A safe of these logins, each with a UUID of its own and a password, in a file.
pub fn safe_of(logins: &[&[Part]]) -> Vec<u8> {
    let mut parts = vec![part(0x00, &[0x0e, 0x03]), part(END, &[])];
    for (number, login) in logins.iter().enumerate() {
        let mut uuid = [number as u8; 16];
        uuid[15] = 0xff;
        parts.push(part(0x01, &uuid));
        parts.extend_from_slice(login);
        if login.iter().all(|part| part.kind != 0x06) {
            parts.push(part(0x06, b"a secret of it"));
        }
        parts.push(part(END, &[]));
    }
    safe_around(&join(&mut Random(1), &parts), 2048)
}

/// Around any fields, well formed or not, with the right HMAC.
pub fn safe_around(body: &[u8], iter: u32) -> Vec<u8> {
    let passphrase = PASSPHRASE.to_vec();
    let parts = Parts { passphrase, salt: [1; 32], iter, k: [2; 32], l: [3; 32], iv: [4; 16] };
    assemble(&parts, body, &hmac(&parts.l, &covered(body)))
}

pub fn safe() -> Vec<u8> {
    safe_around(&body(), 2048)
}

pub fn path(path: &Path) -> &str {
    path.to_str().unwrap()
}
