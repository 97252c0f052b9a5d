//! Random bodies: well formed, and damaged in one way.

use peer::fields::{fill_needed, stored, END};
use peer::random::Random;

/// A field before it is bytes.
#[derive(Clone, Debug)]
pub struct Part {
    pub kind: u8,
    pub data: Vec<u8>,
}

pub fn part(kind: u8, data: &[u8]) -> Part {
    Part { kind, data: data.to_vec() }
}

pub fn version() -> Part {
    part(0x00, &[0x0e, 0x03])
}

pub fn end() -> Part {
    part(END, &[])
}

pub fn field(random: &mut Random, part: &Part) -> Vec<u8> {
    let fill = random.bytes(fill_needed(part.data.len()));
    stored(part.kind, &part.data, &fill)
}

pub fn join(random: &mut Random, parts: &[Part]) -> Vec<u8> {
    parts.iter().map(|p| field(random, p)).collect::<Vec<_>>().concat()
}

/// Text, or what comes close to it.
fn textlike(random: &mut Random, length: usize) -> Vec<u8> {
    let mut text = String::new();
    while text.len() < length {
        text.push(random.pick(&['a', 'Z', '0', ' ', 'ä', 'ž', '密', '🔑', '\u{0}', '\u{feff}']));
    }
    let mut bytes = text.into_bytes();
    if random.one_in(4) {
        let at = random.below(bytes.len() + 1);
        bytes.insert(at, random.pick(&[0x80, 0xc0, 0xc2, 0xe0, 0xed, 0xf0, 0xf4, 0xff]));
    }
    bytes
}

/// Data of a length near one that matters.
pub fn data(random: &mut Random) -> Vec<u8> {
    let more = random.below(80);
    let length = random.pick(&[0, 1, 2, 3, 4, 5, 8, 10, 11, 12, 15, 16, 17, 26, 27, 28, more]);
    if random.one_in(3) {
        random.bytes(length)
    } else {
        textlike(random, length)
    }
}

pub const HEX_DIGITS: &[u8; 22] = b"0123456789abcdefABCDEF";

/// What is no digit: beside one in ASCII, what goes with numbers, and a digit with its highest bit set.
pub const NO_DIGITS: &[u8; 16] = b"/:@G`g+-xX _.\0\n\xb4";

/// That many hex digits, at times with one mistake.
pub fn digits(random: &mut Random, length: usize) -> Vec<u8> {
    let mut bytes: Vec<u8> = (0..length).map(|_| random.pick(HEX_DIGITS)).collect();
    if length > 0 && random.one_in(3) {
        let [near, any] = [random.pick(NO_DIGITS), random.number() as u8];
        bytes[random.below(length)] = random.pick(&[near, any]);
    }
    bytes
}

/// Data for a field of that type: of the header's times and of three of a record's often eight
/// digits, in either section.
fn data_for(random: &mut Random, kind: u8) -> Vec<u8> {
    match kind {
        0x04 | 0x07 | 0x0a | 0x0c | 0x13 if random.one_in(2) => digits(random, 8),
        _ => data(random),
    }
}

fn nonempty(random: &mut Random) -> Vec<u8> {
    let mut data = data(random);
    if data.is_empty() {
        data.push(b'x');
    }
    data
}

/// That of one record in most bodies. No two of its bytes are equal: in another order it is another
/// UUID.
pub const UUID: [u8; 16] = [1, 2, 3, 4, 5, 6, 7, 8, 9, 10, 11, 12, 13, 14, 15, 16];

const REPEATABLE: [u8; 8] = [0x0c, 0x0d, 0x0e, 0x11, 0x12, 0x14, 0x80, 0xfe];

fn header(random: &mut Random) -> Vec<Part> {
    let mut parts = vec![part(0x00, &[random.number() as u8, 0x03])];
    for kind in (0x01..=0x0b).chain([0x0f, 0x10, 0x13]) {
        if random.one_in(5) {
            parts.push(Part { kind, data: data_for(random, kind) });
        }
    }
    for _ in 0..random.below(3) {
        let at = 1 + random.below(parts.len());
        parts.insert(at, Part { kind: random.pick(&REPEATABLE), data: data(random) });
    }
    parts.push(part(END, &[]));
    parts
}

/// A record with that UUID.
pub fn record(random: &mut Random, uuid: &[u8; 16]) -> Vec<Part> {
    let mut parts = vec![
        part(0x01, uuid),
        Part { kind: 0x03, data: nonempty(random) },
        Part { kind: 0x06, data: nonempty(random) },
    ];
    for _ in 0..random.below(5) {
        let kind = random.pick(&[
            0x00, 0x02, 0x04, 0x05, 0x07, 0x0a, 0x0b, 0x0c, 0x0d, 0x11, 0x13, 0x15, 0x17, 0x19,
            0x1a, 0x1b, 0x20, 0x21, 0xdf, 0xfe,
        ]);
        let at = random.below(parts.len() + 1);
        parts.insert(at, Part { kind, data: data_for(random, kind) });
    }
    if random.one_in(2) {
        parts.rotate_left(1);
    }
    parts.push(part(END, &[]));
    parts
}

/// The fields of a well-formed body: no two of its records have one UUID.
pub fn good(random: &mut Random) -> Vec<Part> {
    let mut parts = header(random);
    let mut uuids = vec![[0; 16]; random.pick(&[0, 1, 1, 2, 3, 6])];
    uuids.fill_with(|| random.array());
    if !uuids.is_empty() && !random.one_in(4) {
        let known = random.below(uuids.len());
        uuids[known] = UUID;
    }
    for uuid in &uuids {
        parts.extend(record(random, uuid));
    }
    parts
}

/// Gives one UUID, the header's or a record's, the bytes of another.
fn repeat_uuid(random: &mut Random, parts: &mut [Part]) {
    let is_uuid = |at: &usize| parts[*at].kind == 0x01 && parts[*at].data.len() == 16;
    let uuids: Vec<usize> = (0..parts.len()).filter(is_uuid).collect();
    if !uuids.is_empty() {
        let (from, to) = (random.pick(&uuids), random.pick(&uuids));
        parts[to].data = parts[from].data.clone();
    }
}

/// One change to the row of fields.
pub fn rearrange(random: &mut Random, parts: &mut Vec<Part>) {
    let at = random.below(parts.len());
    let other = random.below(parts.len());
    match random.below(8) {
        0 => drop(parts.remove(at)),
        1 => parts.insert(other, parts[at].clone()),
        2 => parts[at].kind = random.pick(&[0x00, 0x01, 0x03, 0x06, 0x13, END]),
        3 => parts[at].data = data(random),
        4 => parts.swap(at, other),
        5 => drop(parts.pop()),
        6 => repeat_uuid(random, parts),
        _ => parts.push(part(random.pick(&[0x01, 0x03, END]), &[])),
    }
}

/// One change to the bytes of a body.
pub fn damage(random: &mut Random, body: &mut Vec<u8>) {
    if body.is_empty() {
        return;
    }
    let at = random.below(body.len());
    let block = at / 16 * 16;
    match random.below(6) {
        0 => body[at] = random.number() as u8,
        1 => body.truncate(block),
        2 => body.truncate(at),
        3 => body.extend(random.bytes(16)),
        4 => body[block..block + 4].copy_from_slice(&length_bytes(random)),
        _ => body[block + 4] = random.pick(&[0x00, 0x01, 0x03, 0x06, 0x10, END]),
    }
}

/// Lengths at which 5 + length, or a block more, runs over in 32 bits, and others.
fn length_bytes(random: &mut Random) -> [u8; 4] {
    let small = random.below(200) as u32;
    let huge = u32::MAX - random.below(24) as u32;
    random.pick(&[0, small, small, huge, u32::MAX, 0x8000_0000]).to_le_bytes()
}

/// A body that may be well formed, or nearly.
pub fn any(random: &mut Random) -> Vec<u8> {
    let mut parts = good(random);
    let how = random.below(4);
    if how == 1 {
        rearrange(random, &mut parts);
    }
    let mut body = join(random, &parts);
    if how == 2 {
        damage(random, &mut body);
    }
    body
}
