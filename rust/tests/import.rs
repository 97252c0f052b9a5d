//! Import and row against the independent implementation, and the cases on each side of a line, with
//! their numbers written out.

mod common;

use common::calls::*;
use common::tables::*;
use peer::random::Random;
use talcfeather::{Refusal, Row, Uuid};

/// Where a row's text starts, and its room.
const ROOMS: [(usize, usize); 3] = [(16, 80), (96, 80), (176, 72)];

/// Three rows: bare, full to the last byte, and something between.
fn three() -> Vec<u8> {
    let full = [&[b'a'; 80][..], &[b'b'; 80], &[b'c'; 72]];
    let rows = [
        stored(&[0; 16], [b"", b"", b""], 0),
        stored(&[0xff; 16], full, -1),
        stored(&[7; 16], ["Sägewerk".as_bytes(), b"worker", b"Floor 2"], NEVER),
    ];
    rows.concat()
}

/// The outcomes of import and of each row, which are also the peer's; the number and the row's.
fn answered(table: &[u8], random: &mut Random) -> (u32, u64) {
    for number in 0..table.len() / 256 + 2 {
        let ours = row_ours(table, number, random);
        assert_eq!(ours, row_theirs(table, number), "row {number}");
    }
    let ours = import_ours(table, random);
    assert_eq!(ours, import_theirs(table));
    let [rows, at_fault] = numbers(&ours)[..] else { panic!("two numbers") };
    assert!(ours.number == 18 && rows == 0 || at_fault == 0 && rows == table.len() as u64 / 256);
    (ours.number, at_fault)
}

#[test]
fn every_cut() {
    let random = &mut Random(1);
    let table = three();
    for length in 0..=table.len() {
        let expected = if length % 256 == 0 { (0, 0) } else { (18, length as u64 / 256) };
        assert_eq!(answered(&table[..length], random), expected, "{length} bytes");
    }
    for more in 1..256 {
        let longer = [&table[..], &vec![0; more]].concat();
        assert_eq!(answered(&longer, random), (18, 3), "{more} zeros more");
    }
}

#[test]
fn every_byte_of_the_pad() {
    let random = &mut Random(2);
    for record in 0..3 {
        for byte in 252..256 {
            for value in [1, 0x80, 0xff] {
                let mut table = three();
                table[256 * record + byte] = value;
                assert_eq!(answered(&table, random), (18, record as u64), "byte {byte}");
            }
        }
    }
}

/// Of UUID and days every value is taken.
#[test]
fn every_byte_of_uuid_and_days() {
    let random = &mut Random(3);
    for byte in (0..16).chain(248..252) {
        for value in [0, 1, 0x7f, 0x80, 0xff] {
            let mut table = three();
            (0..3).for_each(|record| table[256 * record + byte] = value);
            assert_eq!(answered(&table, random), (0, 0), "byte {byte}");
        }
    }
}

/// A byte after the text, at every place of every room, behind texts of every length.
#[test]
fn bytes_after_a_text() {
    let random = &mut Random(4);
    for (start, room) in ROOMS {
        for length in [0, 1, 2, 40, room - 2, room - 1] {
            for place in length + 1..room {
                for value in [1, b'a', 0x80, 0xff] {
                    let mut table = three();
                    let column = &mut table[512 + start..512 + start + room];
                    column.fill(0);
                    column[..length].fill(b'n');
                    column[place] = value;
                    assert_eq!(answered(&table, random), (18, 2), "{length}, {place} of {start}");
                }
            }
        }
    }
}

/// Every length of text, up to the room, with zeros after it: the row tells it.
#[test]
fn every_length_of_text() {
    let random = &mut Random(5);
    for (i, (start, room)) in ROOMS.into_iter().enumerate() {
        for length in 0..=room {
            let text = text(random, length);
            let mut table = three();
            table[256 + start..256 + start + room].fill(0);
            table[256 + start..256 + start + length].copy_from_slice(&text);
            assert_eq!(answered(&table, random), (0, 0));
            let answer = numbers(&row_ours(&table, 1, random));
            let mut expected = [1, u64::MAX, u64::MAX, 80, 80, 72, u64::MAX];
            expected[3 + i] = length as u64;
            assert_eq!(answer, expected, "{length} bytes at {start}");
        }
    }
}

/// Texts that are none, at the start of a room, and such that they fill it.
#[test]
fn texts_that_are_none() {
    let random = &mut Random(6);
    let bad: [&[u8]; 9] = [
        b"\x80",
        b"a\xff",
        b"\xc3",
        b"\xc0\xaf",
        b"\xe0\x80\xaf",
        b"\xed\xa0\x80",
        b"\xf0\x9f\x94",
        b"\xef\xbb\xbf",
        b"\xef\xbb\xbfLathe",
    ];
    for (start, room) in ROOMS {
        for text in bad {
            let mut table = three();
            table[512 + start..512 + start + room].fill(0);
            table[512 + start..512 + start + text.len()].copy_from_slice(text);
            assert_eq!(answered(&table, random), (18, 2), "{text:x?} at {start}");
            let mut table = three();
            let end = 256 + start + room;
            table[end - text.len()..end].copy_from_slice(text);
            // Behind others, three bytes are no byte order mark.
            let expected = if text.starts_with(b"\xef\xbb\xbf") { (0, 0) } else { (18, 1) };
            assert_eq!(answered(&table, random), expected, "{text:x?} at {start}");
        }
    }
}

/// Every text of one and two bytes in every column, and all of three from those that decide.
#[test]
fn texts() {
    let deciding = [
        0x00, 0x41, 0x7f, 0x80, 0x8f, 0x90, 0x9f, 0xa0, 0xbb, 0xbf, 0xc0, 0xc1, 0xc2, 0xdf, 0xe0,
        0xe1, 0xec, 0xed, 0xee, 0xef, 0xf0, 0xf1, 0xf3, 0xf4, 0xf5, 0xff,
    ];
    let same = |bytes: &[u8]| {
        for (start, room) in ROOMS {
            for place in [start, start + room - bytes.len()] {
                let mut table = three()[256..512].to_vec();
                if place == start {
                    table[start..start + room].fill(0);
                }
                table[place..place + bytes.len()].copy_from_slice(bytes);
                let theirs = peer::table::import(&table).map(|rows| rows.len() as u64);
                let theirs = theirs.map_err(|number| Refusal::Table { number, field: None });
                assert_eq!(talcfeather::import(&table), theirs, "{bytes:x?} at {place}");
            }
        }
    };
    for first in 0..=255 {
        same(&[first]);
        (0..=255).for_each(|second| same(&[first, second]));
    }
    for [a, b] in deciding.iter().flat_map(|a| deciding.map(|b| [*a, b])) {
        deciding.iter().for_each(|c| same(&[a, b, *c]));
    }
}

/// A fault of one sort in the row; a cut is of the last alone.
fn spoil(table: &mut Vec<u8>, row: usize, sort: usize) {
    match sort {
        0 => table[256 * row + 16] = 0xff,
        // The user name is empty, and something stands after it.
        1 => table[256 * row + 97..256 * row + 176].fill(b'x'),
        2 => table[256 * row + 176..256 * row + 179].copy_from_slice(b"\xef\xbb\xbf"),
        3 => table[256 * row + 255] = 1,
        _ => table.truncate(256 * row + 255),
    }
}

/// Of two faults the earlier one counts, whatever they are; each row answers for itself.
#[test]
fn the_first_of_two_faults() {
    let random = &mut Random(7);
    let good = stored(&[7; 16], [b"Lathe", b"", b"Floor"], 5);
    for first in 0..4 {
        for second in first..4 {
            for (one, other) in (0..4).flat_map(|one| (0..5).map(move |other| (one, other))) {
                let mut table = good.repeat(4);
                spoil(&mut table, second, other);
                if first < second {
                    spoil(&mut table, first, one);
                }
                assert_eq!(answered(&table, random), (18, first as u64), "{one}, {other}");
                let refused = |row: usize| row_ours(&table, row, &mut Random(1)).number == 18;
                let rows: Vec<usize> = (0..4).filter(|row| refused(*row)).collect();
                let both = if first == second { vec![first] } else { vec![first, second] };
                assert_eq!(rows, both);
            }
        }
    }
}

/// Numbers past the end, also such that 256 times them runs over.
#[test]
fn rows_past_the_end() {
    let random = &mut Random(8);
    let mut spoilt = three();
    spoilt.truncate(700);
    for table in [three(), Vec::new(), spoilt] {
        let count = table.len().div_ceil(256);
        let huge = [1 << 32, 1 << 56, (1 << 56) + 1, (1 << 56) + 2, usize::MAX / 256, 1 << 63];
        let near =
            [count, count + 1, count + 256, usize::MAX / 256 + 1, usize::MAX - 1, usize::MAX];
        for number in near.into_iter().chain(huge) {
            let ours = row_ours(&table, number, random);
            assert_eq!((ours.number, ours.answer), (0, vec![0; 56]), "row {number}");
            assert_eq!(talcfeather::row(&table, number), Ok(None));
        }
    }
}

#[test]
fn an_empty_table() {
    let random = &mut Random(9);
    assert_eq!(answered(&[], random), (0, 0));
    assert_eq!(import_ours(&[], random).answer, [0; 16]);
    assert_eq!(talcfeather::import(&[]), Ok(0));
}

/// What the wrapper tells of a row.
#[test]
fn rows_in_rust() {
    let table = three();
    let (a, b, c) = ("a".repeat(80), "b".repeat(80), "c".repeat(72));
    let rows = [
        Row { uuid: Uuid([0; 16]), title: "", user: "", group: "", days: 0 },
        Row { uuid: Uuid([0xff; 16]), title: &a, user: &b, group: &c, days: -1 },
        Row {
            uuid: Uuid([7; 16]),
            title: "Sägewerk",
            user: "worker",
            group: "Floor 2",
            days: NEVER,
        },
    ];
    for (number, row) in rows.iter().enumerate() {
        assert_eq!(talcfeather::row(&table, number), Ok(Some(*row)));
    }
    assert_eq!(rows.map(|row| row.expires_in()), [Some(0), Some(-1), None]);
    let at_fault = Refusal::Table { number: 2, field: None };
    assert_eq!(talcfeather::row(&table[..767], 2), Err(at_fault));
    assert_eq!(talcfeather::import(&table[..767]), Err(at_fault));
    assert!(talcfeather::row(&table[..767], 1).is_ok());
    let told = "18: a login that a table does not hold, or a row at fault, number 2: ";
    assert!(at_fault.to_string().starts_with(told), "{at_fault}");
    let by_field = Refusal::Table { number: 2, field: Some(0x0a) };
    assert!(by_field.to_string().contains("number 2, field 0a: "), "{by_field}");
    assert_eq!((at_fault.number(), by_field.number()), (18, 18));
    assert_eq!(by_field.meaning(), at_fault.meaning());
}

/// Import of an export gives the values of each record; written again, they are the table.
#[test]
fn values_come_back() {
    let random = &mut Random(10);
    let mut rows = 0;
    while rows < 4000 {
        let now = any_now(random);
        let logins = any_logins(random, now);
        let body = body_of(random, &logins);
        let ours = exported(random, &body, now, 256 * logins.len());
        if ours.number != 0 {
            continue;
        }
        let table = ours.memory;
        assert_eq!(talcfeather::import(&table), Ok(logins.len() as u64));
        let mut again = Vec::new();
        for (number, login) in logins.iter().enumerate() {
            let first = |kind: u8| login.iter().find(|part| part.kind == kind);
            let data = |kind: u8| first(kind).map_or(&[][..], |part| &part.data);
            let row = talcfeather::row(&table, number).unwrap().expect("a row");
            assert_eq!(row.uuid.0, data(0x01));
            let texts = [row.title, row.user, row.group].map(str::as_bytes);
            assert_eq!(texts, [TITLE, USER, GROUP].map(data));
            let expiry = data(EXPIRY).try_into().map_or(0, u32::from_le_bytes);
            let days = (expiry != 0).then(|| peer::table::days(expiry, now));
            assert_eq!(row.expires_in(), days);
            again.extend(stored(&row.uuid.0, texts, row.days));
        }
        assert!(again == table, "written again, byte for byte");
        assert_eq!(answered(&table, random), (0, 0));
        rows += logins.len();
    }
}

/// One change to the bytes of a table.
fn damage(random: &mut Random, table: &mut Vec<u8>) {
    if table.is_empty() {
        return;
    }
    let (at, last) = (random.below(table.len()), table.len() - 1);
    let row = at / 256 * 256;
    match random.below(8) {
        0 => table[at] ^= 1 << random.below(8),
        1 => table[at] = random.number() as u8,
        2 => table.truncate(at),
        3 => table.extend(random.bytes(1 + at % 300)),
        4 => table[last.min(row + 252 + random.below(4))] = random.number() as u8,
        5 => drop(table.remove(at)),
        6 => table[at] = 0,
        _ => table[row..].rotate_right(1),
    }
}

fn any_row(random: &mut Random) -> Vec<u8> {
    let texts = ROOMS.map(|(_, room)| {
        let more = random.below(room);
        let length = random.pick(&[0, 1, more, room - 1, room]);
        text(random, length)
    });
    let days = random.pick(&[0, 1, -1, i32::MIN, NEVER, NEVER - 1, 49_710]);
    stored(&random.array(), [&texts[0], &texts[1], &texts[2]], days)
}

/// Tables that no export made, and damaged ones.
#[test]
fn tables() {
    let (random, mut met) = (&mut Random(11), Met::default());
    while met.cases() < 20_000 {
        let mut table: Vec<u8> = (0..random.below(7)).flat_map(|_| any_row(random)).collect();
        for _ in 0..random.pick(&[0, 1, 1, 2]) {
            damage(random, &mut table);
        }
        let ours = import_ours(&table, random);
        met.same(ours, import_theirs(&table), table.len());
        let number = random.below(table.len() / 256 + 2);
        let ours = row_ours(&table, number, random);
        met.same(ours, row_theirs(&table, number), (table.len(), number));
    }
    met.each_of(&[0, 18], 5000);
}

/// A table of 52,425 rows, and one row more that is cut.
#[test]
fn a_long_table() {
    let random = &mut Random(12);
    let row = any_row(random);
    let table = row.repeat(52_425);
    assert_eq!(talcfeather::import(&table), Ok(52_425));
    assert_eq!(row_ours(&table, 52_424, random).answer, row_ours(&row, 0, random).answer);
    let longer = [&table[..], &row[..255]].concat();
    let at_fault = Refusal::Table { number: 52_425, field: None };
    assert_eq!(talcfeather::import(&longer), Err(at_fault));
    assert_eq!(talcfeather::row(&longer, 52_425), Err(at_fault));
}
