//! What a safe holds, as the independent implementation reads it.
#![allow(dead_code)]

use crate::common::bodies::{join, part, Part};
use crate::process::*;
use peer::fields::{all, size, END};
use peer::random::Random;
use peer::safe::Opened;
use std::fs;
use std::path::{Path, PathBuf};

/// A field with its fill.
#[derive(Clone, Debug, PartialEq)]
pub struct Stored {
    pub kind: u8,
    pub data: Vec<u8>,
    /// None: any.
    pub fill: Option<Vec<u8>>,
}

/// A field of which any fill will do.
pub fn fresh(kind: u8, data: impl AsRef<[u8]>) -> Stored {
    Stored { kind, data: data.as_ref().to_vec(), fill: None }
}

pub fn time(kind: u8, seconds: u32) -> Stored {
    fresh(kind, seconds.to_le_bytes())
}

pub fn opened(file: &Path, passphrase: &[u8]) -> Opened {
    let bytes = fs::read(file).unwrap();
    peer::safe::read(&bytes, passphrase, u32::MAX, usize::MAX).0.expect("a safe")
}

fn fields_of(body: &[u8]) -> Vec<Stored> {
    let fields = all(body).expect("fields");
    let stored = |field: &peer::fields::Field| {
        let end = field.place + size(field.length);
        let fill = body[field.place + 5 + field.length..end].to_vec();
        Stored { kind: field.kind, data: field.data(body).to_vec(), fill: Some(fill) }
    };
    fields.iter().map(stored).collect()
}

/// Header and records, each with its END.
pub fn sections(file: &Path, passphrase: &[u8]) -> Vec<Vec<Stored>> {
    let fields = fields_of(&opened(file, passphrase).body);
    fields.split_inclusive(|field| field.kind == END).map(<[Stored]>::to_vec).collect()
}

/// The same fields in the same order; and the same fill, where it is not to be fresh.
pub fn assert_same(found: &[Vec<Stored>], expected: &[Vec<Stored>]) {
    assert_eq!(found.len(), expected.len(), "records");
    for (number, (found, expected)) in found.iter().zip(expected).enumerate() {
        let kinds = |fields: &[Stored]| fields.iter().map(|field| field.kind).collect::<Vec<_>>();
        assert_eq!(kinds(found), kinds(expected), "section {number}");
        for (found, expected) in found.iter().zip(expected) {
            let kind = expected.kind;
            assert_eq!(found.data, expected.data, "section {number}, {kind:02x}");
            if expected.fill.is_some() {
                assert_eq!(found.fill, expected.fill, "section {number}, fill of {kind:02x}");
            }
        }
    }
}

/// Replaces the field of that type, or puts one before the END.
pub fn put(section: &mut Vec<Stored>, field: Stored) {
    match section.iter().position(|held| held.kind == field.kind) {
        Some(at) => section[at] = field,
        None => section.insert(section.len() - 1, field),
    }
}

pub const NOW: u32 = 1_793_606_400;
/// As the option has it.
pub const AT_NOW: [&str; 2] = ["--now", "1793606400"];

pub fn what() -> Stored {
    fresh(0x06, concat!("talc ", env!("CARGO_PKG_VERSION")))
}

/// The stamps that a save leaves in a header that has told neither user nor host.
pub fn stamp(header: &mut Vec<Stored>) {
    put(header, time(0x04, NOW));
    put(header, what());
}

/// Folder, safe, and a file with its passphrase.
pub struct Office {
    pub folder: Folder,
    pub file: PathBuf,
    pub passphrase: PathBuf,
    /// The option that names a file with a password.
    pub password: String,
}

impl Office {
    pub fn with(name: &str, safe: &[u8]) -> Office {
        let folder = Folder::new(name);
        let file = folder.put("a.psafe3", safe);
        let passphrase = folder.put("passphrase", PASSPHRASE);
        let password = folder.put("password", b"a new password\n");
        let password = format!("--password-file={}", path(&password));
        Office { folder, file, passphrase, password }
    }

    pub fn new(name: &str) -> Office {
        Office::with(name, &safe())
    }

    pub fn of(name: &str, fields: &[Part]) -> Office {
        Office::with(name, &safe_around(&join(&mut Random(3), fields), 2048))
    }

    /// Runs a command on the safe, which is its first word.
    pub fn talc(&self, command: &str, words: &[&str]) -> Ended {
        let given = ["--passphrase-file", path(&self.passphrase)];
        let words = [&[command, path(&self.file)], words, &given, &AT_NOW].concat();
        talc(&words, b"")
    }

    pub fn done(&self, command: &str, words: &[&str]) -> String {
        let ended = self.talc(command, words);
        assert_eq!(ended.status, 0, "{}", ended.err);
        ended.out
    }

    pub fn sections(&self) -> Vec<Vec<Stored>> {
        sections(&self.file, PASSPHRASE)
    }

    pub fn backup(&self) -> PathBuf {
        self.folder.0.join("a.psafe3.bak")
    }
}

/// A header and one login, with their ENDs.
pub fn one_login(header: &[Part], login: &[Part]) -> Vec<Part> {
    let [version, end] = [part(0x00, &[0x0e, 0x03]), part(END, &[])];
    let needed = [part(0x01, &[9; 16]), part(0x03, b"Printer"), part(0x06, b"old")];
    let end = std::slice::from_ref(&end);
    [&[version], header, end, &needed, login, end].concat()
}
