//! Makes damaged copies of a safe of 200 logins, and says how the library answers each.
//!
//! ```text
//! cargo run --release --example damaged -- FOLDER
//! ```
//!
//! The passphrase of all of them is `two hundred logins`.

use peer::body::covered;
use peer::fields::{all, fill_needed, stored, END};
use peer::hmac::hmac;
use peer::random::Random;
use peer::safe::{assemble, Parts, MARKER};
use std::error::Error;
use std::path::Path;
use talcfeather::{header, record};

const PASSPHRASE: &[u8] = b"two hundred logins";
const CEILING: u32 = 16_777_216;

/// Type and data of a field.
type Part = (u8, Vec<u8>);

fn login(random: &mut Random, number: usize) -> Vec<Part> {
    vec![
        (record::UUID, random.bytes(16)),
        (record::TITLE, format!("Login {number}").into()),
        (record::USER, format!("user{number}@example.org").into()),
        (record::PASSWORD, random.bytes(12).iter().map(|b| b'a' + b % 26).collect()),
        (record::CREATION_TIME, 1_800_000_000u32.to_le_bytes().into()),
        (END, Vec::new()),
    ]
}

fn logins(random: &mut Random) -> Vec<Vec<Part>> {
    let header = vec![
        (header::VERSION, vec![0x0e, 0x03]),
        (header::UUID, random.bytes(16)),
        (header::LAST_SAVE_TIME, 1_800_000_000u32.to_le_bytes().into()),
        (header::WHAT_SAVED, b"an example".into()),
        (END, Vec::new()),
    ];
    let records = (0..200).map(|number| login(random, number));
    [header].into_iter().chain(records.collect::<Vec<_>>()).collect()
}

fn body_of(entries: &[Vec<Part>]) -> Vec<u8> {
    let field = |(kind, data): &Part| stored(*kind, data, &vec![0; fill_needed(data.len())]);
    entries.iter().flatten().flat_map(field).collect()
}

fn safe_of(body: &[u8]) -> Vec<u8> {
    let passphrase = PASSPHRASE.to_vec();
    let parts =
        Parts { passphrase, salt: [1; 32], iter: 2048, k: [2; 32], l: [3; 32], iv: [4; 16] };
    let tag = all(body).map_or([0; 32], |_| hmac(&parts.l, &covered(body)));
    assemble(&parts, body, &tag)
}

/// A safe whose fields were changed before it was saved.
fn with_fields(change: impl FnOnce(&mut Vec<Vec<Part>>)) -> Vec<u8> {
    let mut entries = logins(&mut Random(200));
    change(&mut entries);
    safe_of(&body_of(&entries))
}

/// A safe whose bytes were changed after it was saved.
fn with_bytes(change: impl FnOnce(&mut Vec<u8>)) -> Vec<u8> {
    let mut file = with_fields(|_| {});
    change(&mut file);
    file
}

/// The offset at which the first hundred records end.
fn half() -> usize {
    152 + body_of(&logins(&mut Random(200))[..101]).len()
}

fn bytes_changed() -> Vec<(&'static str, Vec<u8>)> {
    vec![
        ("whole", with_bytes(|_| {})),
        ("cut inside a record, half way", with_bytes(|f| f.truncate(half() + 21))),
        ("cut at a record's end, half way", with_bytes(|f| f.truncate(half()))),
        (
            "half, then marker and the old HMAC",
            with_bytes(|f| {
                let tag = f.split_off(f.len() - 32);
                f.truncate(half());
                f.extend(MARKER.iter().chain(&tag));
            }),
        ),
        ("HMAC byte changed", with_bytes(|f| *f.last_mut().unwrap() ^= 1)),
        (
            "marker byte changed",
            with_bytes(|f| {
                let end = f.len();
                f[end - 48] ^= 1;
            }),
        ),
        ("1 byte appended", with_bytes(|f| f.push(0))),
        ("16 bytes appended", with_bytes(|f| f.extend([0; 16]))),
        ("1,024 bytes appended", with_bytes(|f| f.extend([0; 1024]))),
        ("ITER 0", with_bytes(|f| f[36..40].fill(0))),
        ("ITER 4,294,967,295", with_bytes(|f| f[36..40].fill(0xff))),
        ("key block byte changed", with_bytes(|f| f[72] ^= 1)),
    ]
}

fn without(kind: u8) -> impl FnOnce(&mut Vec<Vec<Part>>) {
    move |entries| entries[100].retain(|part| part.0 != kind)
}

fn fields_changed() -> Vec<(&'static str, Vec<u8>)> {
    let mut huge = body_of(&logins(&mut Random(200)));
    let place = half() - 152;
    huge[place..place + 4].fill(0xff);
    vec![
        ("field length 4,294,967,295", safe_of(&huge)),
        ("record without UUID", with_fields(without(record::UUID))),
        ("record without Title", with_fields(without(record::TITLE))),
        ("record without Password", with_fields(without(record::PASSWORD))),
        ("header without END", with_fields(|entries| drop(entries[0].pop()))),
        ("record time of 3 bytes", with_fields(|entries| entries[100][4].1.truncate(3))),
        ("Title not UTF-8", with_fields(|entries| entries[100][1].1[0] = 0xff)),
        (
            "two records with one UUID",
            with_fields(|entries| entries[100][0] = entries[101][0].clone()),
        ),
    ]
}

fn answer(file: &[u8]) -> String {
    let mut workspace = vec![0; file.len()];
    let outcome = talcfeather::read(file, PASSPHRASE, CEILING, &mut workspace);
    match outcome {
        Ok(opened) => format!("accepted, {} records", opened.counts.records),
        Err(refusal) => format!("{}: {}", refusal.number(), refusal.meaning()),
    }
}

fn main() -> Result<(), Box<dyn Error>> {
    let folder = std::env::args_os().nth(1).ok_or("damaged FOLDER")?;
    let files = bytes_changed().into_iter().chain(fields_changed());
    for (number, (what, file)) in files.enumerate() {
        let name = format!("{number:02}.psafe3");
        std::fs::write(Path::new(&folder).join(&name), &file)?;
        println!("{name}\t{what}\t{}", answer(&file));
    }
    Ok(())
}
