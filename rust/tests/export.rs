//! Export against the independent implementation, and the cases on each side of a line, with their
//! numbers written out.

mod common;

use common::bodies::{damage, data, join, part, Part};
use common::calls::*;
use common::tables::*;
use common::traces::{counted, shuffle, Uuid};
use common::uuids::{body_with, MOST_RECORDS};
use peer::fields::END;
use peer::random::Random;
use peer::table::days;
use talcfeather::Refusal;

/// The row of one login with these fields.
fn row_of(random: &mut Random, fields: &[Part], now: u32) -> Vec<u8> {
    let body = one(random, fields);
    let ours = exported(random, &body, now, 256);
    assert_eq!((ours.number, numbers(&ours)), (0, vec![1, 0, 0]));
    ours.memory
}

fn days_of(random: &mut Random, fields: &[Part], now: u32) -> i32 {
    let row = row_of(random, fields, now);
    let days = i32::from_le_bytes(row[248..252].try_into().unwrap());
    assert!(row == stored(&[7; 16], [b"Lathe", b"", b""], days));
    days
}

fn refused(random: &mut Random, fields: &[Part], kind: u8) {
    let body = one(random, fields);
    for room in [0, 255, 256, 300] {
        refused_at(&exported(random, &body, NOW, room), 0, kind);
    }
}

/// A row with that text in the column of that type.
fn with_text(kind: u8, text: &[u8]) -> Vec<u8> {
    let texts = TEXTS.map(|(column, _, _)| match (column == kind, column) {
        (true, _) => text,
        (_, TITLE) => b"Lathe",
        _ => b"",
    });
    stored(&[7; 16], texts, NEVER)
}

#[test]
fn every_part_in_its_place() {
    let random = &mut Random(1);
    let uuid: [u8; 16] = core::array::from_fn(|i| i as u8 + 1);
    let fields = [
        part(EXPIRY, &(NOW + 0x0102 * DAY).to_le_bytes()),
        part(GROUP, b"Floor 2.Lathes"),
        part(USER, b"worker"),
        part(TITLE, "Sägewerk".as_bytes()),
    ];
    let body = body_of(random, &[login(&uuid, &fields)]);
    let ours = exported(random, &body, NOW, 256);
    let mut row = vec![0; 256];
    row[..16].copy_from_slice(&uuid);
    row[16..25].copy_from_slice("Sägewerk".as_bytes());
    row[96..102].copy_from_slice(b"worker");
    row[176..190].copy_from_slice(b"Floor 2.Lathes");
    row[248..250].copy_from_slice(&[2, 1]);
    assert!(ours.memory == row);
}

/// 79, 80, 81 bytes; 71, 72, 73; and others.
#[test]
fn texts_at_their_room() {
    let random = &mut Random(2);
    for (kind, _, room) in TEXTS {
        let lengths = [1, 2, 11, 12, 15, 16, 27, 28, room - 2, room - 1, room, room + 1, room + 2];
        for length in lengths.into_iter().chain([255, 256, 257, 1000, 65_616]) {
            let text = text(random, length);
            assert_eq!(text.len(), length);
            if length <= room {
                assert!(row_of(random, &[part(kind, &text)], NOW) == with_text(kind, &text));
            } else {
                refused(random, &[part(kind, &text)], kind);
            }
        }
    }
}

/// The character at the end of the room goes in whole, or not at all.
#[test]
fn characters_at_the_end_of_a_room() {
    let random = &mut Random(3);
    for (kind, _, room) in TEXTS {
        for c in ['x', 'ä', '密', '🔑'] {
            let before = "n".repeat(room - c.len_utf8());
            let text = format!("{before}{c}").into_bytes();
            assert!(row_of(random, &[part(kind, &text)], NOW) == with_text(kind, &text));
            for more in 1..=c.len_utf8() {
                let text = format!("{}{c}", "n".repeat(room - c.len_utf8() + more));
                refused(random, &[part(kind, text.as_bytes())], kind);
            }
        }
    }
}

#[test]
fn empty_and_absent_texts() {
    let random = &mut Random(4);
    let bare = stored(&[7; 16], [b"Lathe", b"", b""], NEVER);
    for fields in [vec![], vec![USER], vec![GROUP], vec![USER, GROUP], vec![GROUP, USER]] {
        let fields: Vec<Part> = fields.iter().map(|kind| part(*kind, &[])).collect();
        assert!(row_of(random, &fields, NOW) == bare);
    }
}

#[test]
fn texts_that_are_none() {
    let random = &mut Random(5);
    let bad: [&[u8]; 16] = [
        b"\x80",
        b"Lathe \xff",
        b"\xc3",
        b"Dreh\xc3",
        b"\xc0\xaf",
        b"\xe0\x80\xaf",
        b"\xed\xa0\x80",
        b"\xf4\x90\x80\x80",
        b"\xef\xbb\xbf",
        b"\xef\xbb\xbfLathe",
        b"\0",
        b"Lathe\0",
        b"Lathe\0\0",
        b"\0Lathe",
        b"La\0the",
        b"La\0\xff",
    ];
    let good: [&[u8]; 4] = [b"\x01\x1f\x7f", b"a\xef\xbb\xbf", b"\xef\xbb\xbe", b"\xc2\x80"];
    for (kind, _, room) in TEXTS {
        for text in bad {
            refused(random, &[part(kind, text)], kind);
            // As the last that fits, too.
            let last = [&vec![b'n'; room - text.len()], text].concat();
            if !text.starts_with(b"\xef\xbb\xbf") {
                refused(random, &[part(kind, &last)], kind);
            }
        }
        for text in good {
            assert!(row_of(random, &[part(kind, text)], NOW) == with_text(kind, text));
        }
    }
}

/// Every title of one and two bytes, and all of three from those that decide.
#[test]
fn titles() {
    let random = &mut Random(6);
    let deciding = [
        0x00, 0x41, 0x7f, 0x80, 0x8f, 0x90, 0x9f, 0xa0, 0xbb, 0xbf, 0xc0, 0xc1, 0xc2, 0xdf, 0xe0,
        0xe1, 0xec, 0xed, 0xee, 0xef, 0xf0, 0xf1, 0xf3, 0xf4, 0xf5, 0xff,
    ];
    let mut same = |title: &[u8]| {
        let body = one(random, &[part(TITLE, title)]);
        let mut table = [0xEE; 256];
        let ours = talcfeather::export(&body, 0, &mut table);
        match peer::text::is_text(title) && !title.contains(&0) {
            true => assert!(ours == Ok(1) && table[..] == with_text(TITLE, title), "{title:x?}"),
            false => {
                assert_eq!(ours, Err(Refusal::Table { number: 0, field: Some(3) }), "{title:x?}");
                assert_eq!(table, [0xEE; 256]);
            }
        }
    };
    for first in 0..=255 {
        same(&[first]);
        (0..=255).for_each(|second| same(&[first, second]));
    }
    for [a, b] in deciding.iter().flat_map(|a| deciding.map(|b| [*a, b])) {
        deciding.iter().for_each(|c| same(&[a, b, *c]));
    }
}

#[test]
fn days_written_out() {
    let random = &mut Random(7);
    let cases: [(u32, u32, i32); 26] = [
        (1, 0, 0),
        (DAY - 1, 0, 0),
        (DAY, 0, 1),
        (DAY + 1, 0, 1),
        (2 * DAY - 1, 0, 1),
        (2 * DAY, 0, 2),
        (u32::MAX, 0, 49_710),
        (1, 1, 0),
        (1, 2, -1),
        (1, DAY, -1),
        (1, DAY + 1, -1),
        (1, DAY + 2, -2),
        (NOW - 1, NOW, -1),
        (NOW, NOW, 0),
        (NOW + 1, NOW, 0),
        (NOW - DAY - 1, NOW, -2),
        (NOW - DAY, NOW, -1),
        (NOW - DAY + 1, NOW, -1),
        (1 << 31, 0, 24_855),
        (1, 1 << 31, -24_856),
        ((1 << 31) - 1, 1 << 31, -1),
        (u32::MAX, u32::MAX, 0),
        (u32::MAX - 1, u32::MAX, -1),
        (u32::MAX - DAY, u32::MAX, -1),
        (u32::MAX - DAY - 1, u32::MAX, -2),
        (1, u32::MAX, -49_711),
    ];
    for (expiry, now, days) in cases {
        let fields = [part(EXPIRY, &expiry.to_le_bytes())];
        assert_eq!(days_of(random, &fields, now), days, "{expiry} at {now}");
    }
}

/// One second before, at and after each kind of multiple of a day around now.
#[test]
fn days_at_every_line() {
    let random = &mut Random(8);
    let nows = [0, 1, DAY - 1, DAY, DAY + 1, NOW, 1 << 31, u32::MAX - DAY, u32::MAX - 1, u32::MAX];
    let mut met = [0; 3];
    for now in nows {
        for multiple in (-4..=4).chain([-49_711, -49_710, -24_856, 24_855, 49_710, 49_711]) {
            for second in [-1, 0, 1] {
                let expiry = i64::from(now) + multiple * i64::from(DAY) + second;
                let Ok(expiry @ 1..) = u32::try_from(expiry) else { continue };
                let expected = if second < 0 { multiple - 1 } else { multiple };
                let fields = [part(EXPIRY, &expiry.to_le_bytes())];
                assert_eq!(i64::from(days_of(random, &fields, now)), expected);
                met[(second + 1) as usize] += 1;
            }
        }
    }
    assert!(met.iter().all(|count| *count > 40), "{met:?}");
}

#[test]
fn no_expiry() {
    let random = &mut Random(9);
    for now in [0, 1, NOW, u32::MAX] {
        assert_eq!(days_of(random, &[], now), NEVER);
        assert_eq!(days_of(random, &[part(EXPIRY, &[])], now), NEVER);
        assert_eq!(days_of(random, &[part(EXPIRY, &[0; 4])], now), NEVER);
        let soon = [part(EXPIRY, &[1, 0, 0, 0])];
        assert_eq!(days_of(random, &soon, now), days(1, now));
    }
}

#[test]
fn misshapen_expiries() {
    let random = &mut Random(10);
    for length in (1..=20).filter(|length| *length != 4) {
        refused(random, &[part(EXPIRY, &vec![0; length])], EXPIRY);
        refused(random, &[part(EXPIRY, &vec![1; length])], EXPIRY);
        refused(random, &[part(EXPIRY, &vec![b'1'; length])], EXPIRY);
    }
    // Eight hex digits are a time in the header alone.
    for digits in [b"4A5B6C7D", b"ffffffff", b"00000000"] {
        refused(random, &[part(EXPIRY, digits)], EXPIRY);
    }
}

/// Good and bad data of a type.
fn sorts(kind: u8) -> [Vec<u8>; 3] {
    match kind {
        EXPIRY => [(NOW + DAY).to_le_bytes().to_vec(), vec![], vec![1, 2, 3]],
        _ => [b"worker".to_vec(), vec![], b"wor\0ker".to_vec()],
    }
}

/// Of two fields of a type the first counts, whatever it and the later one are.
#[test]
fn the_first_of_a_type() {
    let random = &mut Random(11);
    for kind in [USER, GROUP, EXPIRY] {
        let another = [b"other", &[0xff; 4][..]][usize::from(kind == EXPIRY)].to_vec();
        for first in sorts(kind) {
            let alone = one(random, &[part(kind, &first)]);
            let alone = exported(random, &alone, NOW, 256);
            for later in sorts(kind).into_iter().chain([another.clone()]) {
                let fields = [part(kind, &first), part(0x05, b"notes"), part(kind, &later)];
                for fields in [fields.to_vec(), [&fields[..], &fields[2..]].concat()] {
                    let both = one(random, &fields);
                    let both = exported(random, &both, NOW, 256);
                    assert_eq!((both.number, &both.answer), (alone.number, &alone.answer));
                    assert!(both.number != 0 || both.memory == alone.memory);
                }
            }
        }
    }
}

/// A login whose fields of these types are at fault, in any order.
fn at_fault(random: &mut Random, uuid: &[u8; 16], faults: &[u8]) -> Vec<Part> {
    let fields = [TITLE, USER, GROUP, EXPIRY].map(|kind| {
        let bad = match random.below(3) {
            _ if kind == EXPIRY => vec![0; 5],
            0 => vec![b'n'; 81],
            1 => vec![0xff],
            _ => b"a\0b".to_vec(),
        };
        let [good, _, _] = sorts(kind);
        Part { kind, data: if faults.contains(&kind) { bad } else { good } }
    });
    let mut fields = fields.to_vec();
    shuffle(random, &mut fields);
    login(uuid, &fields)
}

/// Every set of faults in three records: the first record counts, and in it the first column.
#[test]
fn the_first_of_several_faults() {
    let random = &mut Random(12);
    let order = [TITLE, USER, GROUP, EXPIRY];
    for set in 0..4096 {
        let faults = [0, 4, 8].map(|record| {
            let those = (0..4).filter(|i| set >> (record + i) & 1 == 1);
            those.map(|i| order[i]).collect::<Vec<u8>>()
        });
        let records =
            [0, 1, 2].map(|number| at_fault(random, &[number; 16], &faults[number as usize]));
        let body = body_of(random, &records);
        let ours = exported(random, &body, NOW, 768);
        match faults.iter().position(|faults| !faults.is_empty()) {
            Some(record) => refused_at(&ours, record as u64, faults[record][0]),
            None => assert_eq!(numbers(&ours), [3, 0, 0]),
        }
    }
}

/// 9 before 18, 18 before 3, and 3 up to the last byte.
#[test]
fn the_order_of_refusals() {
    let random = &mut Random(13);
    let good = [login(&[1; 16], &[]), login(&[2; 16], &[]), login(&[3; 16], &[])];
    let bad = [good[0].clone(), good[1].clone(), at_fault(random, &[7; 16], &[EXPIRY])];
    for room in [0, 1, 255, 256, 511, 512, 767, 768, 769, 1024] {
        let body = body_of(random, &bad);
        refused_at(&exported(random, &body, NOW, room), 2, EXPIRY);
        let cut = exported(random, &body[..body.len() - 16], NOW, room);
        assert_eq!((cut.number, cut.answer), (9, vec![0; 24]), "room {room}");
        let body = body_of(random, &good);
        let ours = exported(random, &body, NOW, room);
        let expected = if room < 768 { (3, vec![0; 3]) } else { (0, vec![3, 0, 0]) };
        assert_eq!((ours.number, numbers(&ours)), expected, "room {room}");
    }
}

/// What is beyond the table stays; a refusal touches nothing, wherever the fault stands.
#[test]
fn bytes_of_the_output() {
    let random = &mut Random(14);
    for count in [0, 1, 2, 5] {
        let mut records: Vec<Vec<Part>> =
            (0..count).map(|i| login(&[i as u8; 16], &[part(USER, b"worker")])).collect();
        let row = |i: usize| stored(&[i as u8; 16], [b"Lathe", b"worker", b""], NEVER);
        let table: Vec<u8> = (0..count).flat_map(row).collect();
        let body = body_of(random, &records);
        for more in [0, 1, 255, 256, 1000] {
            let output = random.bytes(256 * count + more);
            let ours = Export { body: &body, now: NOW, output: &output }.ours(random);
            assert_eq!((ours.number, numbers(&ours)), (0, vec![count as u64, 0, 0]));
            assert!(ours.memory[..256 * count] == table);
            assert!(ours.memory[256 * count..] == output[256 * count..], "beyond the table");
            // The last login is at fault, after all that could have been written before it.
            records.push(at_fault(random, &[7; 16], &[GROUP]));
            let body = body_of(random, &records);
            let ours = Export { body: &body, now: NOW, output: &output }.ours(random);
            refused_at(&ours, count as u64, GROUP);
            assert!(ours.memory == output, "a refused output is what it was");
            records.pop();
        }
    }
}

#[test]
fn bodies_that_are_not_well_formed() {
    let random = &mut Random(15);
    let body = body_of(random, &[login(&[1; 16], &[]), login(&[2; 16], &[])]);
    for length in 0..body.len() {
        let ours = exported(random, &body[..length], NOW, 512);
        // A cut behind an END leaves a body of fewer records.
        let records = peer::body::judge(&body[..length]).map(|counts| counts.records);
        match records {
            Ok(records) => assert_eq!(numbers(&ours), [records, 0, 0]),
            Err(_) => assert_eq!((ours.number, ours.answer), (9, vec![0; 24])),
        }
    }
    for missing in [0x01, 0x03, 0x06] {
        let mut record = login(&[1; 16], &[]);
        record.retain(|part| part.kind != missing);
        let body = body_of(random, &[record]);
        assert_eq!(exported(random, &body, NOW, 256).number, 9);
    }
    let one_uuid =
        body_of(random, &[login(&[1; 16], &[]), login(&[2; 16], &[]), login(&[1; 16], &[])]);
    assert_eq!(exported(random, &one_uuid, NOW, 768).number, 9);
    for doubled in [part(0x01, &[1; 16]), part(0x03, b"t"), part(0x06, b"p")] {
        let mut record = login(&[1; 16], &[]);
        record.insert(1, doubled);
        let body = body_of(random, &[record]);
        assert_eq!(exported(random, &body, NOW, 256).number, 9);
    }
}

/// Bodies of logins, some of them spoilt, into outputs about as long as the table.
#[test]
fn exports() {
    let (random, mut met) = (&mut Random(16), Met::default());
    while met.cases() < 12_000 {
        let now = any_now(random);
        let logins = any_logins(random, now);
        let mut body = body_of(random, &logins);
        if random.one_in(6) {
            damage(random, &mut body);
        }
        let need = 256 * logins.len();
        let longer = need + random.pick(&[0, 0, 1, 300]);
        let shorter = random.pick(&[0, need.saturating_sub(1), need.saturating_sub(256)]);
        let room = if random.one_in(6) { shorter } else { longer };
        let output = random.bytes(room);
        let case = Export { body: &body, now, output: &output };
        let ours = case.ours(random);
        met.same(ours, case.theirs(), (now, room, logins.len()));
    }
    met.each_of(&[0], 4000);
    met.each_of(&[3, 9, 18], 500);
}

/// Any fields that bodies have, which are seldom texts that fit.
#[test]
fn exports_of_any_body() {
    let (random, mut met) = (&mut Random(17), Met::default());
    while met.cases() < 8_000 {
        let body = common::bodies::any(random);
        let output = random.bytes(2048);
        let case = Export { body: &body, now: NOW, output: &output };
        let ours = case.ours(random);
        met.same(ours, case.theirs(), body.len());
    }
    met.each_of(&[0, 9, 18], 800);
}

/// The same login with everything else in it changed: other data, fields that come and go, and
/// later fields of the table's own types.
fn otherwise(random: &mut Random, login: &[Part]) -> Vec<Part> {
    let mut seen = Vec::new();
    let mut parts = Vec::new();
    for field in login {
        let counts = [0x01, TITLE, USER, GROUP, EXPIRY, END].contains(&field.kind);
        if counts && !seen.contains(&field.kind) {
            seen.push(field.kind);
            parts.push(field.clone());
        } else if field.kind == 0x06 {
            let length = 1 + random.below(100);
            parts.push(Part { kind: 0x06, data: random.bytes(length) });
        } else if random.one_in(2) {
            parts.push(Part { kind: field.kind, data: data(random) });
        }
    }
    for _ in 0..random.below(5) {
        let kind = random.pick(&[0x05, 0x07, 0x0c, 0x0f, 0x1b, 0x1c, 0x20, 0x60, 0xfe]);
        let at = random.below(parts.len());
        parts.insert(at, Part { kind, data: data(random) });
    }
    parts
}

/// No password leaves: whatever is in other fields, the outcome is the same, byte for byte.
#[test]
fn nothing_else_leaves() {
    let (random, mut met) = (&mut Random(18), Met::default());
    while met.cases() < 4000 {
        let now = any_now(random);
        let logins = any_logins(random, now);
        let output = random.bytes(256 * logins.len() + 20);
        let body = body_of(random, &logins);
        let first = Export { body: &body, now, output: &output }.ours(random);
        for _ in 0..3 {
            let others: Vec<_> = logins.iter().map(|login| otherwise(random, login)).collect();
            let header = [part(0x00, &[0x0d, 0x03]), part(0x09, &data(random)), part(END, &[])];
            let parts = [&header[..], &others.concat()].concat();
            let body = join(random, &parts);
            let other = Export { body: &body, now, output: &output }.ours(random);
            assert_eq!(other, first);
        }
        let secret = |bytes: &[u8]| bytes.windows(7).any(|window| window == b"secret ");
        assert!(logins.is_empty() || secret(&body), "the password is in the body");
        assert!(first.number != 0 || !secret(&first.memory), "and not in the table");
        met.same(first, Export { body: &body, now, output: &output }.theirs(), logins.len());
    }
    met.each_of(&[0, 18], 500);
}

/// 4 MB of the smallest logins: 52,425 of them, and one more at fault.
#[test]
fn a_long_body() {
    let random = &mut Random(19);
    let uuids: Vec<Uuid> = (0..MOST_RECORDS).map(counted).collect();
    let (body, count) = (body_with(random, &uuids), uuids.len());
    assert_eq!((body.len(), count), (4_194_032, 52_425));
    let ours = exported(random, &body, NOW, 256 * count);
    assert_eq!((ours.number, numbers(&ours)), (0, vec![count as u64, 0, 0]));
    let row = |uuid| stored(uuid, [b"t", b"", b""], NEVER);
    assert!(ours.memory == uuids.iter().map(row).collect::<Vec<_>>().concat());
    assert_eq!(exported(random, &body, NOW, 256 * count - 1).number, 3);
    let bad = login(&[6; 16], &[part(GROUP, &[b'n'; 73])]);
    let longer = [body, join(random, &bad)].concat();
    refused_at(&exported(random, &longer, NOW, 256 * count + 256), count as u64, GROUP);
}
