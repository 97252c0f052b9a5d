//! Logins, bodies of them, and what an export of them came to.

use super::bodies::{data, join, part, Part};
use super::calls::{Export, Outcome};
use super::traces::shuffle;
use peer::fields::END;
use peer::random::Random;

/// 2026-11-02 08:00:00 UTC.
pub const NOW: u32 = 1_793_606_400;
pub const DAY: u32 = 86_400;
/// The days of no expiry.
pub const NEVER: i32 = 2_147_483_647;

pub const TITLE: u8 = 0x03;
pub const USER: u8 = 0x04;
pub const GROUP: u8 = 0x02;
pub const EXPIRY: u8 = 0x0a;

/// The texts of a row: type, where the row has it, and its room.
pub const TEXTS: [(u8, usize, usize); 3] = [(TITLE, 16, 80), (USER, 96, 80), (GROUP, 176, 72)];

/// A record with these fields, and what it needs beside them: UUID, perhaps a title, a password.
pub fn login(uuid: &[u8; 16], fields: &[Part]) -> Vec<Part> {
    let mut parts = vec![part(0x01, uuid)];
    if !fields.iter().any(|field| field.kind == TITLE) {
        parts.push(part(TITLE, b"Lathe"));
    }
    parts.extend_from_slice(fields);
    parts.extend([part(0x06, b"the password"), part(END, &[])]);
    parts
}

/// The body of these records; its header has fields that a record must not have.
pub fn body_of(random: &mut Random, records: &[Vec<Part>]) -> Vec<u8> {
    // Types that would be group, title, user name and expiry in a record.
    let decoys =
        [part(GROUP, &[0xff]), part(TITLE, b"a\0b"), part(USER, b"abc"), part(EXPIRY, b"abc")];
    let (version, end) = ([part(0x00, &[0x0e, 0x03])], [part(END, &[])]);
    let parts = [&version[..], &decoys, &end, &records.concat()].concat();
    join(random, &parts)
}

/// The body of one login with these fields.
pub fn one(random: &mut Random, fields: &[Part]) -> Vec<u8> {
    body_of(random, &[login(&[7; 16], fields)])
}

/// The library's outcome, which is also the peer's, into an output of that many bytes of junk; a
/// refused output is what it was.
pub fn exported(random: &mut Random, body: &[u8], now: u32, room: usize) -> Outcome {
    let output = random.bytes(room);
    let case = Export { body, now, output: &output };
    let ours = case.ours(random);
    assert_eq!(ours, case.theirs());
    assert!(ours.number == 0 || ours.memory == output, "a refused output is what it was");
    ours
}

/// The numbers of an answer.
pub fn numbers(outcome: &Outcome) -> Vec<u64> {
    let numbers = outcome.answer.chunks_exact(8);
    numbers.map(|n| u64::from_le_bytes(n.try_into().unwrap())).collect()
}

/// The outcome of 18 at that record, by that field.
pub fn refused_at(outcome: &Outcome, record: u64, kind: u8) {
    assert_eq!((outcome.number, numbers(outcome)), (18, vec![0, record, kind.into()]));
}

/// A row of these parts, with zeros after the texts.
pub fn stored(uuid: &[u8; 16], texts: [&[u8]; 3], days: i32) -> Vec<u8> {
    let mut row = [0; 256];
    row[..16].copy_from_slice(uuid);
    for (text, (_, start, _)) in texts.iter().zip(TEXTS) {
        row[start..start + text.len()].copy_from_slice(text);
    }
    row[248..252].copy_from_slice(&days.to_le_bytes());
    row.to_vec()
}

/// Text of exactly that many bytes, of characters of one to four.
pub fn text(random: &mut Random, length: usize) -> Vec<u8> {
    let mut bytes = Vec::new();
    while bytes.len() < length {
        let c = random.pick(&['a', 'Z', ' ', '\n', '\u{7f}', 'ä', 'ž', '密', '\u{feff}', '🔑']);
        let first = bytes.is_empty() && c == '\u{feff}';
        if c.len_utf8() <= length - bytes.len() && !first {
            bytes.extend(c.to_string().bytes());
        }
    }
    bytes
}

/// Text of a length near the room, at times spoilt.
fn any_text(random: &mut Random, room: usize) -> Vec<u8> {
    let more = random.below(room);
    let length = random.pick(&[1, 5, 11, 12, more, more, room - 1, room, room]);
    let mut text = text(random, length);
    match random.below(50) {
        0 => text.push(b'x'),
        1 => text.push(0),
        2 => text.insert(0, random.pick(&[0, 0x80, 0xff])),
        3 => text.splice(..0, *b"\xef\xbb\xbf").for_each(drop),
        _ => {}
    }
    text
}

fn any_expiry(random: &mut Random, now: u32) -> Vec<u8> {
    let days = (random.below(9) as u32).wrapping_sub(4);
    let near = now.wrapping_add(days.wrapping_mul(DAY));
    let (before, after) = (near.wrapping_sub(1), near.wrapping_add(1));
    let more = random.number() as u32;
    let expiry = random.pick(&[0, 1, near, before, after, more, u32::MAX]);
    let length = if random.one_in(60) { random.pick(&[1, 3, 5, 8]) } else { 4 };
    let bytes = [expiry.to_le_bytes(), [0; 4]].concat();
    bytes[..if random.one_in(20) { 0 } else { length }].to_vec()
}

/// Data for a field of any type; in those of a table mostly such that a row holds it.
pub fn any_data(random: &mut Random, kind: u8, now: u32) -> Vec<u8> {
    match TEXTS.iter().find(|text| text.0 == kind) {
        Some(_) if kind != TITLE && random.one_in(8) => Vec::new(),
        Some((_, _, room)) => any_text(random, *room),
        None if kind == EXPIRY => any_expiry(random, now),
        None => data(random),
    }
}

/// Types that may come any number of times, and are in the table or not.
const OTHERS: [u8; 11] = [USER, USER, GROUP, GROUP, EXPIRY, EXPIRY, 0x05, 0x07, 0x0d, 0x0f, 0x1b];

pub fn any_login(random: &mut Random, now: u32) -> Vec<Part> {
    let password = [b"secret ", &random.bytes(4)[..]].concat();
    let title = any_data(random, TITLE, now);
    let mut parts = vec![part(0x01, &random.array::<16>()), Part { kind: TITLE, data: title }];
    parts.push(Part { kind: 0x06, data: password });
    for _ in 0..random.below(7) {
        let kind = random.pick(&OTHERS);
        parts.push(Part { kind, data: any_data(random, kind, now) });
    }
    shuffle(random, &mut parts);
    parts.push(part(END, &[]));
    parts
}

pub fn any_logins(random: &mut Random, now: u32) -> Vec<Vec<Part>> {
    let more = random.below(12);
    (0..random.pick(&[0, 1, 1, 2, 3, more])).map(|_| any_login(random, now)).collect()
}

pub fn any_now(random: &mut Random) -> u32 {
    let more = random.number() as u32;
    random.pick(&[0, 1, DAY, NOW, NOW, 1 << 31, u32::MAX, more])
}
