//! The files saved by other programs, with what is known about them.

use crate::fields::{all, END};
use crate::json::Json;
use crate::safe::{Opened, Parts};
use std::collections::BTreeMap;
use std::path::PathBuf;

/// Per UUID in hex, per type in hex, the text.
pub type Listing = BTreeMap<String, BTreeMap<String, String>>;

pub struct Saved {
    pub name: String,
    pub file: Vec<u8>,
    pub passphrase: Vec<u8>,
    pub iter: u32,
    pub header_fields: u64,
    pub records: u64,
    pub answer: u32,
    pub listing: Listing,
}

impl Saved {
    /// What it is made of, with the keys that were read from it.
    pub fn parts(&self, opened: &Opened) -> Parts {
        Parts {
            passphrase: self.passphrase.clone(),
            salt: self.file[4..36].try_into().unwrap(),
            iter: self.iter,
            k: opened.k,
            l: opened.l,
            iv: self.file[136..152].try_into().unwrap(),
        }
    }
}

/// The record types that a listing speaks of: group, title, user, notes, password, URL.
const LISTED: [u8; 6] = [0x02, 0x03, 0x04, 0x05, 0x06, 0x0d];

fn folder() -> PathBuf {
    PathBuf::from(env!("CARGO_MANIFEST_DIR")).join("../../examples/saved")
}

pub fn hex(bytes: &[u8]) -> String {
    bytes.iter().map(|b| format!("{b:02x}")).collect()
}

pub fn unhex(text: &str) -> Vec<u8> {
    let digit = |i| u8::from_str_radix(&text[i..i + 2], 16).expect("hex digits");
    (0..text.len()).step_by(2).map(digit).collect()
}

fn json(name: &str) -> Json {
    Json::read(&std::fs::read_to_string(folder().join(name)).expect(name))
}

fn listing(name: &str) -> Listing {
    let whole = json(name);
    let texts = |record: &Json| {
        let pairs = record.object().iter();
        pairs.map(|(kind, text)| (kind.clone(), text.text().to_string())).collect()
    };
    let records = whole.object()["records"].object().iter();
    records.map(|(uuid, record)| (uuid.clone(), texts(record))).collect()
}

fn saved(entry: &Json) -> Saved {
    let entry = entry.object();
    let name = entry["file"].text().to_string();
    let file = std::fs::read(folder().join(&name)).expect(&name);
    assert_eq!(file.len() as u64, entry["bytes"].number(), "{name}");
    Saved {
        listing: listing(&name.replace(".psafe3", ".list.json")),
        passphrase: unhex(entry["passphrase_hex"].text()),
        iter: entry["iter"].number() as u32,
        header_fields: entry["header_fields"].number(),
        records: entry["records"].number(),
        answer: entry["answer"].number() as u32,
        name,
        file,
    }
}

/// All of them.
pub fn files() -> Vec<Saved> {
    let files: Vec<Saved> = json("index.json").list().iter().map(saved).collect();
    assert!(files.len() > 20, "the saved files are there");
    files
}

/// What the listing of a well-formed body must be.
pub fn listing_of(body: &[u8]) -> Listing {
    let fields = all(body).expect("a body that divides into fields");
    let mut records = fields.split(|f| f.kind == END);
    records.next();
    let listed = records.filter(|r| !r.is_empty()).map(|record| {
        let uuid = record.iter().find(|f| f.kind == 1).expect("a UUID");
        let texts = record.iter().filter(|f| LISTED.contains(&f.kind) && f.length > 0);
        let text = |data: &[u8]| String::from_utf8(data.to_vec()).expect("text");
        let texts = texts.map(|f| (hex(&[f.kind]), text(f.data(body)))).collect();
        (hex(uuid.data(body)), texts)
    });
    listed.collect()
}
