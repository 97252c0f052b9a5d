//! The library against the independent implementation, on some 130,000 cases of its calls:
//! well formed, damaged, and on both sides of every limit. Each case compares the number, every
//! byte of the answer and every byte of lent memory, guards included. Seeds are fixed.

mod common;

use common::bodies::{any, damage, data, good, join, UUID};
use common::calls::*;
use peer::body::{covered, judge};
use peer::chain::cbc_encrypt;
use peer::fields::{all, fill_needed, Cursor, END};
use peer::hmac::hmac;
use peer::random::Random;
use peer::safe::{assemble, Parts, MARKER};
use peer::twofish::Twofish;

fn parts(random: &mut Random) -> Parts {
    let length = random.pick(&[0, 1, 12, 12, 22, 23, 24, 87, 88, 1023, 1024]);
    Parts {
        passphrase: random.bytes(length),
        salt: random.array(),
        iter: 2048 + random.pick(&[0, 0, 0, 1, 2]),
        k: random.array(),
        l: random.array(),
        iv: random.array(),
    }
}

/// A file around any body of whole blocks, its HMAC right where it has one.
fn file_around(random: &mut Random, parts: &Parts, body: &[u8]) -> Vec<u8> {
    let tag = match all(body) {
        Ok(_) => hmac(&parts.l, &covered(body)),
        Err(_) => random.array(),
    };
    assemble(parts, body, &tag)
}

/// One change to a whole file, in any of its parts.
fn damage_file(random: &mut Random, file: &mut Vec<u8>) {
    let at = random.below(file.len());
    let length = file.len();
    match random.below(10) {
        0 => file[at] ^= 1 << random.below(8),
        1 => file.truncate(at),
        2 => file.truncate(length - 16 * random.below(4)),
        3 => file.extend(vec![0; random.pick(&[1, 8, 15, 16, 17, 32, 1024])]),
        4 => file[random.below(4)] ^= 0x20,
        5 => file[36..40].copy_from_slice(&random.pick(&[0, 2047, u32::MAX]).to_le_bytes()),
        6 => {
            let block = 152 + (length - 152) / 16 * 16 * random.below(100) / 100 / 16 * 16;
            file[block..block + 16].copy_from_slice(MARKER);
        }
        7 => file[length - 48 + random.below(16)] ^= 1,
        8 => file[length - 1 - random.below(32)] ^= 1,
        _ => file[136 + random.below(16)] ^= 1,
    }
}

fn read_case(random: &mut Random, met: &mut Met) {
    let parts = parts(random);
    let mut body = any(random);
    body.truncate(body.len() / 16 * 16);
    let mut file = file_around(random, &parts, &body);
    if random.one_in(2) {
        damage_file(random, &mut file);
    }
    let mut passphrase = parts.passphrase.clone();
    if random.one_in(12) {
        passphrase.push(0);
    }
    let around = [parts.iter, parts.iter, parts.iter - 1, parts.iter + 1];
    let ceiling = random.pick(&[around, [4000, 4000, 4000, 2047]].concat());
    let need = file.len().saturating_sub(200);
    let short = random.pick(&[0, need.saturating_sub(1)]);
    let enough = random.pick(&[need, need, need + 1, need + 50]);
    let room = if random.one_in(12) { short } else { enough };
    let case = Read { file: &file, passphrase: &passphrase, ceiling, room };
    let ours = case.ours(random);
    met.same(ours, case.theirs(), (&parts, ceiling, room, file.len()));
}

fn read_cases(seed: u64) {
    let (mut random, mut met) = (Random(seed), Met::default());
    while met.cases() < 3000 {
        read_case(&mut random, &mut met);
    }
    met.each_of(&[0, 9], 300);
    met.each_of(&[1, 3, 4, 5, 6, 7, 8], 50);
    met.each_of(&[2], 5);
}

#[test]
fn reads() {
    read_cases(11);
}

#[test]
fn more_reads() {
    read_cases(12);
}

/// Makes a block of the encrypted body equal the marker, where that can be done.
fn collide(random: &mut Random, parts: &mut Parts, body: &mut [u8]) {
    let cipher = Twofish::new(&parts.k);
    let wanted = cipher.decrypt(MARKER);
    let long = all(body).ok().and_then(|fields| fields.into_iter().find(|f| f.length >= 27));
    match long {
        Some(field) if random.one_in(2) => {
            let block = field.place + 16;
            let mut encrypted = body[..block].to_vec();
            cbc_encrypt(&cipher, &parts.iv, &mut encrypted);
            let before = &encrypted[block - 16..];
            (0..16).for_each(|i| body[block + i] = wanted[i] ^ before[i]);
        }
        _ => parts.iv = core::array::from_fn(|i| wanted[i] ^ body[i]),
    }
}

fn write_case(random: &mut Random, met: &mut Met) {
    let mut parts = parts(random);
    let mut body = any(random);
    match random.below(12) {
        0 => parts.iter = random.pick(&[0, 1, 2047]),
        1 => parts.passphrase.resize(1025, b'x'),
        2 => body.truncate(random.pick(&[0, 15, 16, 31, 33])),
        3 if judge(&body).is_ok() => collide(random, &mut parts, &mut body),
        _ => {}
    }
    let need = body.len() + 200;
    let enough = random.pick(&[need, need, need + 1, need + 77]);
    let room = if random.one_in(12) { random.pick(&[need - 1, 0]) } else { enough };
    let case = Write { parts: &parts, body: &body, room };
    let ours = case.ours(random);
    met.same(ours, case.theirs(), (&parts, room, body.len()));
}

#[test]
fn writes() {
    let (mut random, mut met) = (Random(21), Met::default());
    while met.cases() < 4000 {
        write_case(&mut random, &mut met);
    }
    met.each_of(&[0, 9], 300);
    met.each_of(&[1, 2, 3, 5, 10], 50);
}

/// What is written is read back, by the library alone.
#[test]
fn writes_then_reads() {
    let mut random = Random(22);
    for _ in 0..500 {
        let parts = parts(&mut random);
        let fields = good(&mut random);
        let body = join(&mut random, &fields);
        let written = Write { parts: &parts, body: &body, room: body.len() + 200 };
        let file = written.ours(&mut random);
        assert_eq!(file.number, 0);
        let (passphrase, ceiling) = (&parts.passphrase[..], parts.iter);
        let read = Read { file: &file.memory, passphrase, ceiling, room: body.len() };
        let read = read.ours(&mut random);
        assert_eq!(read.number, 0);
        assert!(read.memory == body);
        assert_eq!(read.answer[..64], [parts.k, parts.l].concat());
    }
}

fn place(random: &mut Random, length: usize) -> usize {
    let aligned = random.below(length / 16 + 2) * 16;
    let any = random.below(length + 20);
    random.pick(&[0, aligned, aligned, aligned, aligned, length, any, usize::MAX, usize::MAX - 15])
}

#[test]
fn walks() {
    let (mut random, mut met) = (Random(31), Met::default());
    while met.cases() < 40_000 {
        let mut body = any(&mut random);
        if random.one_in(2) {
            damage(&mut random, &mut body);
        }
        for _ in 0..8 {
            let in_record = random.one_in(2);
            let at = Cursor { place: place(&mut random, body.len()), in_record };
            let case = Walk { body: &body, at };
            let ours = case.ours(&mut random);
            met.same(ours, case.theirs(), at);
        }
    }
    met.each_of(&[0, 11, 14], 1000);
}

/// From the start to the end or the refusal, each cursor from the answer before.
#[test]
fn whole_walks() {
    let (mut random, mut met) = (Random(32), Met::default());
    let (mut wrong, mut stamps) = (0, [0, 0]);
    while met.cases() < 20_000 {
        let body = any(&mut random);
        let mut at = Cursor { place: 0, in_record: false };
        loop {
            let case = Walk { body: &body, at };
            let ours = case.ours(&mut random);
            let [kind, length, value] = [24, 40, 48].map(|offset| ours.answer[offset]);
            wrong += u32::from(value == 7 && ours.answer[56] > 0);
            let stamp = [0x04, 0x13].contains(&kind) && length == 8 && !at.in_record;
            stamps[0] += u32::from(stamp && value == 3);
            stamps[1] += u32::from(stamp && value == 8);
            met.same(ours, case.theirs(), at);
            let Ok(Some((_, next))) = peer::fields::walk(&body, at) else { break };
            at = next;
        }
    }
    met.each_of(&[0, 14], 50);
    assert!(wrong > 300, "a text went wrong behind its start {wrong} times");
    assert!(stamps.iter().all(|met| *met > 50), "eight digits, and others: {stamps:?} times");
}

fn append_case(random: &mut Random, met: &mut Met) {
    let length = random.below(12) * 16 + random.pick(&[0, 0, 0, 5]);
    let buffer = random.bytes(length);
    let mut data = data(random);
    let any_kind = random.number() as u8;
    let kind = random.pick(&[0x00, 0x01, 0x03, 0x06, any_kind, END]);
    if kind == END && random.one_in(2) {
        data.clear();
    }
    let needed = fill_needed(data.len());
    let wrong = [needed + 1, needed.saturating_sub(1), needed + 16, random.below(32), 0];
    let fill = if random.one_in(6) { random.pick(&wrong) } else { needed };
    let fill = random.bytes(fill);
    let place = place(random, length);
    let case = Append { buffer: &buffer, place, kind, data: &data, fill: &fill };
    let ours = case.ours(random);
    met.same(ours, case.theirs(), (length, place, kind, data.len(), fill.len()));
}

#[test]
fn appends() {
    let (mut random, mut met) = (Random(41), Met::default());
    while met.cases() < 20_000 {
        append_case(&mut random, &mut met);
    }
    met.each_of(&[0, 3, 11, 12, 13], 300);
}

#[test]
fn judgements() {
    let (mut random, mut met) = (Random(51), Met::default());
    while met.cases() < 20_000 {
        let body = any(&mut random);
        let ours = judge_ours(&body, &mut random);
        met.same(ours, judge_theirs(&body), body.len());
    }
    met.each_of(&[0, 9], 3000);
}

#[test]
fn finds() {
    let (mut random, mut met) = (Random(61), Met::default());
    let mut found = 0;
    while met.cases() < 20_000 {
        let body = any(&mut random);
        let uuid = if random.one_in(4) { random.array() } else { UUID };
        let ours = find_ours(&body, &uuid, &mut random);
        found += u32::from(ours.answer[0]);
        met.same(ours, find_theirs(&body, &uuid), body.len());
    }
    met.each_of(&[0, 9], 3000);
    assert!(found > 3000, "a record was found {found} times");
}
