//! The rules' own cases, and the files saved by other programs.

use peer::body::{find, judge};
use peer::fields::{append, size, walk, Cursor, Value};
use peer::random::Random;
use peer::replay::{Accepted, Standing};
use peer::safe::{read, write};
use peer::saved::{files, listing_of};
use peer::stretch::stretch;
use peer::table::{days, export, import, row, Refused, Row};
use peer::text::{goes_wrong, is_text};
use std::collections::HashSet;

#[test]
fn sizes_of_fields() {
    assert_eq!([0, 11, 12, 27, 28].map(size), [16, 16, 32, 32, 48]);
}

#[test]
fn compressions_of_the_first_hash() {
    for (length, blocks) in [(23, 1), (24, 2), (1024, 17)] {
        assert_eq!(stretch(&vec![0; length], &[0; 32], 0).1, blocks);
    }
    assert_eq!(stretch(&[0; 24], &[0; 32], 2048).1 + 1, 2051);
}

fn smallest() -> Vec<u8> {
    let mut body = vec![0; 32];
    let next = append(&mut body, 0, 0, &[0x0e, 0x03], &[0; 9]).unwrap();
    assert_eq!(append(&mut body, next, 0xff, &[], &[0; 11]), Ok(32));
    body
}

#[test]
fn version_and_end_alone() {
    let counts = judge(&smallest()).unwrap();
    assert_eq!((counts.header_fields, counts.records), (1, 0));
}

#[test]
fn a_huge_field() {
    let mut body = smallest();
    body[..4].fill(0xff);
    let start = Cursor { place: 0, in_record: false };
    assert_eq!(walk(&body, start), Err(14));
    assert_eq!(judge(&body), Err(9));
}

/// The value of a field whose data have 11 bytes at most.
fn value(kind: u8, in_record: bool, data: &[u8]) -> Value {
    let mut buffer = vec![0; 16];
    append(&mut buffer, 0, kind, data, &vec![0; 11 - data.len()]).unwrap();
    walk(&buffer, Cursor { place: 0, in_record }).unwrap().unwrap().0.value
}

#[test]
fn values_of_a_record() {
    let kinds: [(u8, &[u8], Value); 8] = [
        (0x07, &[1, 2, 0, 0], Value::Time(513)),
        (0x07, &[1, 2, 0], Value::Misshapen),
        (0x15, &[2], Value::Flag(true)),
        (0x13, &[255, 0], Value::Number(255)),
        (0x03, "ä".as_bytes(), Value::Text),
        (0x03, &[b'a', 0xff], Value::BadText(1)),
        (0x1b, &[1], Value::Opaque),
        (0x1b, &[], Value::Empty),
    ];
    for (kind, data, expected) in kinds {
        assert_eq!(value(kind, true, data), expected);
    }
}

/// Each sentence of the request by hand: eight digits of either case, eight bytes that are not all
/// digits, and the times of a record, which stay at 4 bytes.
#[test]
fn times_of_the_header() {
    let cases: [(&[u8], Value); 18] = [
        (b"", Value::Empty),
        (b"4A5B", Value::Time(0x4235_4134)),
        (b"4A5B6C7D", Value::Time(0x4a5b_6c7d)),
        (b"4a5b6c7d", Value::Time(0x4a5b_6c7d)),
        (b"0123456f", Value::Time(0x0123_456f)),
        (b"fEDCBA98", Value::Time(0xfedc_ba98)),
        (b"00000000", Value::Time(0)),
        (b"FFFFffff", Value::Time(u32::MAX)),
        (b"4A5B6C7", Value::Misshapen),
        (b"4A5B6C7D0", Value::Misshapen),
        (b"4A5B6C7G", Value::Misshapen),
        (b"g4A5B6C7", Value::Misshapen),
        (b"+4A5B6C7", Value::Misshapen),
        (b"-4A5B6C7", Value::Misshapen),
        (b" 4A5B6C7", Value::Misshapen),
        (b"0x4A5B6C", Value::Misshapen),
        (b"4A5B6C7\0", Value::Misshapen),
        (b"4A5B6C\xff7", Value::Misshapen),
    ];
    for (data, expected) in cases {
        assert_eq!([0x04, 0x13].map(|kind| value(kind, false, data)), [expected; 2], "{data:x?}");
    }
    for kind in [0x07, 0x08, 0x09, 0x0a, 0x0c] {
        assert_eq!(value(kind, true, b"4A5B6C7D"), Value::Misshapen);
        assert_eq!(value(kind, true, b"4A5B"), Value::Time(0x4235_4134));
    }
    assert_eq!(value(0x04, true, b"4A5B6C7D"), Value::Text);
    assert_eq!(value(0x13, true, b"4A5B6C7D"), Value::Misshapen);
}

/// The same by a second reading: what a number is printed as, in either case, is that time; and of
/// all bytes at each place 22 are digits.
#[test]
fn every_digit_of_a_time() {
    let random = &mut Random(1);
    for _ in 0..10_000 {
        let seconds = random.number() as u32;
        for printed in [format!("{seconds:08x}"), format!("{seconds:08X}")] {
            assert_eq!(value(0x04, false, printed.as_bytes()), Value::Time(seconds));
        }
    }
    for place in 0..8 {
        let with = |byte: &u8| {
            let mut data = *b"00000000";
            data[place] = *byte;
            value(0x04, false, &data) != Value::Misshapen
        };
        let digits: Vec<u8> = (0..=255).filter(with).collect();
        assert_eq!(digits, b"0123456789ABCDEFabcdef");
    }
}

/// Each sentence of the request by hand: the longest well-formed start, a byte order mark, a final
/// 00, and several of them.
#[test]
fn where_a_text_goes_wrong() {
    let cases: [(&[u8], usize); 27] = [
        (b"\xff", 0),
        (b"\x80abc", 0),
        (b"ab\xffcd", 2),
        (b"ab\xffcd\xfe", 2),
        (b"\xc3\xa4\xc3\xc3\xa4", 2),
        (b"abc\xc0\x80", 3),
        (b"a\xe0\x9f\xbf", 1),
        (b"a\xed\xa0\x80", 1),
        (b"a\xf4\x90\x80\x80", 1),
        (b"abc\xc3", 3),
        (b"abc\xe5\xaf", 3),
        (b"abc\xf0\x9f\x94", 3),
        (b"\xf0\x9f\x94", 0),
        (b"\xef\xbb", 0),
        (b"a\xef\xbb", 1),
        (b"\xef\xbb\xbf", 0),
        (b"\xef\xbb\xbfabc", 0),
        (b"\xef\xbb\xbfabc\xffd", 0),
        (b"\xef\xbb\xbfabc\0", 0),
        (b"\0", 0),
        (b"\0\0\0", 2),
        (b"abc\0", 3),
        (b"a\0c\0", 3),
        (b"\xc3\xa4\0", 2),
        (b"a\xffc\0", 1),
        (b"abc\xc3\0", 3),
        (b"a\0\xff", 2),
    ];
    for (data, at) in cases {
        assert_eq!((goes_wrong(data), is_text(data)), (Some(at), false), "{data:x?}");
    }
    let texts: [&[u8]; 6] =
        [b"", b"abc", b"\0a", b"a\0\0c", b"a\xef\xbb\xbf", b"\xef\xbb\xbe\xf4\x8f\xbf\xbf"];
    for data in texts {
        assert_eq!((goes_wrong(data), is_text(data)), (None, true), "{data:x?}");
    }
}

/// Whether the data are characters one after the other.
fn formed(data: &[u8], characters: &HashSet<Vec<u8>>) -> bool {
    let ends = 1..=data.len();
    let mut firsts = ends.map(|end| data.split_at(end)).filter(|(c, _)| characters.contains(*c));
    data.is_empty() || firsts.any(|(_, rest)| formed(rest, characters))
}

/// The same by a second reading, for all texts of at most four of the bytes that decide: of all starts
/// the longest that is characters, each of them the UTF-8 of a `char`.
#[test]
fn the_longest_well_formed_start() {
    let characters = ('\0'..=char::MAX).map(|c| c.to_string().into_bytes()).collect();
    let deciding = [
        0x00, 0x41, 0x7f, 0x80, 0x8f, 0x90, 0x9f, 0xa0, 0xbb, 0xbf, 0xc0, 0xc1, 0xc2, 0xdf, 0xe0,
        0xe1, 0xec, 0xed, 0xee, 0xef, 0xf0, 0xf1, 0xf3, 0xf4, 0xf5, 0xff,
    ];
    let mut texts = vec![Vec::new()];
    for at in 0..1 + 26 + 26 * 26 + 26 * 26 * 26 {
        let longer = deciding.map(|byte| [&texts[at][..], &[byte]].concat());
        texts.extend(longer);
    }
    assert_eq!(texts.iter().filter(|data| data.len() == 4).count(), 26 * 26 * 26 * 26);
    for data in &texts {
        let mut starts = (0..=data.len()).rev();
        let longest = starts.find(|end| formed(&data[..*end], &characters)).unwrap();
        let at = match data.as_slice() {
            [0xef, 0xbb, 0xbf, ..] => Some(0),
            [.., 0] if longest == data.len() => Some(longest - 1),
            _ => Some(longest).filter(|longest| *longest < data.len()),
        };
        assert_eq!(goes_wrong(data), at, "{data:x?}");
    }
}

#[test]
fn files_saved_by_other_programs() {
    for saved in files() {
        let (answer, _) = read(&saved.file, &saved.passphrase, u32::MAX, saved.file.len());
        assert_eq!(answer.as_ref().err().copied().unwrap_or(0), saved.answer, "{}", saved.name);
        let Ok(opened) = answer else { continue };
        assert_eq!(opened.counts.header_fields, saved.header_fields, "{}", saved.name);
        assert_eq!(opened.counts.records, saved.records, "{}", saved.name);
        assert_eq!(listing_of(&opened.body), saved.listing, "{}", saved.name);
        let again = write(&saved.parts(&opened), &opened.body, saved.file.len());
        assert!(again == Ok(saved.file), "{}", saved.name);
    }
}

fn record(uuid: u8, time: u8, kind: u8) -> Vec<u8> {
    [&[uuid; 16][..], &[time, 0, 0, 0, kind], &[0; 11]].concat()
}

/// Each row of times and kinds in both directions: whether it leaves the login cancelled.
#[test]
fn standings_of_a_login() {
    let rows: [(&[(u8, u8)], bool); 9] = [
        (&[], false),
        (&[(5, 1)], false),
        (&[(5, 2)], true),
        (&[(5, 3)], false),
        (&[(5, 2), (4, 3)], true),
        (&[(5, 2), (5, 3)], true),
        (&[(5, 2), (6, 3)], false),
        (&[(5, 2), (6, 1)], true),
        (&[(5, 2), (6, 3), (7, 2), (4, 3)], true),
    ];
    for (row, cancelled) in rows {
        let forth: Vec<_> = row.iter().map(|(time, kind)| record(1, *time, *kind)).collect();
        let back: Vec<_> = forth.iter().rev().cloned().collect();
        for records in [forth, back] {
            let mut accepted = Accepted::default();
            assert_eq!(accepted.take(&record(2, 9, 2)), Ok(()));
            assert_eq!(accepted.take(&records.concat()), Ok(()));
            assert_eq!(accepted.standing(&[1; 16]).cancelled, cancelled, "{row:?}");
            let other = Standing { cancelled: true, cancel: Some(9), reissue: None };
            assert_eq!(accepted.standing(&[2; 16]), other);
        }
    }
}

#[test]
fn records_at_fault() {
    let good = record(1, 5, 2);
    let mut padded = good.clone();
    padded[31] = 1;
    let cases = [
        (vec![record(1, 5, 0)], 0),
        (vec![good.clone(), record(1, 5, 4)], 1),
        (vec![good.clone(), padded.clone(), record(1, 5, 4)], 1),
        (vec![good.clone(), good.clone(), good[..31].to_vec()], 2),
        (vec![padded, good[..1].to_vec()], 0),
    ];
    for (records, number) in cases {
        let mut accepted = Accepted::default();
        assert_eq!(accepted.take(&records.concat()), Err(number));
        assert!(accepted.0.is_empty());
    }
}

#[test]
fn one_uuid_too_many() {
    let edit = |i: u16| [&i.to_le_bytes()[..], &[0; 18], &[1], &[0; 11]].concat();
    let mut accepted = Accepted::default();
    let full: Vec<u8> = (0..4096).flat_map(edit).collect();
    assert_eq!(accepted.take(&[&full[..], &edit(4096)].concat()), Err(4096));
    assert_eq!(accepted.take(&full), Ok(()));
    assert_eq!(accepted.take(&[edit(4095), edit(4096)].concat()), Err(1));
    assert_eq!((accepted.0.len(), accepted.uuids().len()), (4096, 4096));
}

/// Type and data of a field.
type Part<'a> = (u8, &'a [u8]);

/// A body of one login: Version, END, and these fields with UUID and password.
fn one_login(fields: &[Part]) -> Vec<u8> {
    let before: [Part; 3] = [(0x00, &[0x0e, 0x03]), (0xff, &[]), (0x01, &[7; 16])];
    let after: [Part; 2] = [(0x06, b"x"), (0xff, &[])];
    let stored = |(kind, data): &Part| {
        peer::fields::stored(*kind, data, &vec![0; peer::fields::fill_needed(data.len())])
    };
    [&before, fields, &after].concat().iter().flat_map(stored).collect()
}

/// To the UUID, or to the last END; the header's own UUID decides nothing.
#[test]
fn fields_visited() {
    let visited = |body: &[u8], uuid: u8| find(body, &[uuid; 16]).unwrap().visited;
    assert_eq!(visited(&smallest(), 7), 2);
    let body = one_login(&[(0x03, b"Lathe"), (0x02, &[b'n'; 100])]);
    assert_eq!([visited(&body, 7), visited(&body, 8)], [3, 7]);
    let header = [&body[..16], &body[32..64], &body[16..]].concat();
    assert_eq!([visited(&header, 7), visited(&header, 8)], [4, 8]);
    let mut two = [&body[..], &body[64..body.len() - 16], &body[32..64], &body[16..32]].concat();
    let last = two.len() - 48 + 5;
    two[last..last + 16].fill(8);
    assert_eq!([7, 8, 9].map(|uuid| visited(&two, uuid)), [3, 11, 12]);
    assert_eq!(find(&body[..body.len() - 16], &[7; 16]), Err(9));
}

/// One UUID, one record: a double is 9 wherever it stands; the header's own is no record's.
#[test]
fn one_uuid_one_record() {
    let body = one_login(&[(0x03, b"Lathe")]);
    let (start, record) = (&body[..32], &body[32..]);
    let another = |byte: usize| {
        let mut record = record.to_vec();
        record[5 + byte] ^= 1;
        record
    };
    let three = [start, record, &another(0), &another(15)].concat();
    assert_eq!(judge(&three).unwrap().records, 3);
    let search = find(&three, another(15)[5..21].try_into().unwrap()).unwrap();
    assert_eq!((search.found.map(|found| found.record), search.visited), (Some(2), 11));
    for at in 0..3 {
        let mut records = [another(3), another(8)].to_vec();
        records.insert(at, record.to_vec());
        for again in 0..=3 {
            let mut records = records.clone();
            records.insert(again, record.to_vec());
            let body = [start, &records.concat()].concat();
            assert_eq!((judge(&body), find(&body, &[9; 16])), (Err(9), Err(9)));
            assert_eq!(export(&body, 0, 1024), Err(Refused::Body));
        }
    }
    let header = [&body[..16], &body[32..64], &body[16..]].concat();
    assert_eq!(judge(&header).unwrap().records, 1);
}

/// By the request's own words: 86,400 d <= expiry - now < 86,400 (d + 1).
#[test]
fn days_to_expiry() {
    let times = [0, 1, 86_399, 86_400, 86_401, 172_800, 1 << 31, u32::MAX - 86_400, u32::MAX];
    for (expiry, now) in times.iter().flat_map(|e| times.map(|n| (*e, n))) {
        let (d, between) = (i64::from(days(expiry, now)), i64::from(expiry) - i64::from(now));
        assert!(86_400 * d <= between && between < 86_400 * (d + 1), "{expiry} at {now}");
    }
    assert_eq!([days(1, 2), days(2, 1), days(1, 86_401), days(86_401, 1)], [-1, 0, -1, 1]);
}

#[test]
fn a_table_there_and_back() {
    let fields: [Part; 4] =
        [(0x03, b"Lathe"), (0x0a, &[0, 0, 0, 1]), (0x02, b"Floor"), (0x04, b"worker")];
    let body = one_login(&fields);
    let table = export(&body, (1 << 24) + 1, 256).unwrap();
    let lathe = Row {
        uuid: [7; 16],
        title: "Lathe".into(),
        user: "worker".into(),
        group: "Floor".into(),
        days: -1,
    };
    assert_eq!((import(&table), row(&table, 0)), (Ok(vec![lathe.clone()]), Ok(Some(lathe))));
    assert_eq!((table.len(), &table[248..]), (256, &[0xff, 0xff, 0xff, 0xff, 0, 0, 0, 0][..]));
    assert_eq!(row(&table, 1), Ok(None));
    assert_eq!(export(&body, 0, 255), Err(Refused::Room));
    assert_eq!(export(&body[16..], 0, 256), Err(Refused::Body));
}

#[test]
fn logins_at_fault() {
    let long = [b'n'; 81];
    let cases: [(&[Part], u8); 6] = [
        (&[(0x03, &long)], 0x03),
        (&[(0x02, &long[..73]), (0x03, b"t")], 0x02),
        (&[(0x02, b"a\0b"), (0x04, b"\xff"), (0x03, b"t")], 0x04),
        (&[(0x0a, &[1, 2, 3]), (0x03, b"t")], 0x0a),
        (&[(0x0a, &[1, 2, 3]), (0x02, b"\0"), (0x03, b"t")], 0x02),
        (&[(0x03, b"\xef\xbb\xbft"), (0x02, b"\0")], 0x03),
    ];
    for (fields, kind) in cases {
        assert_eq!(export(&one_login(fields), 0, 0), Err(Refused::Login(0, kind)));
    }
    let fits: [Part; 4] = [(0x03, &long[..80]), (0x02, &long[..72]), (0x02, &long), (0x04, b"")];
    assert!(export(&one_login(&fits), 0, 256).is_ok());
}

#[test]
fn rows_at_fault() {
    for (byte, value) in [(252, 1), (255, 1), (16, 0xff), (17, b'x'), (97, b'x'), (247, b'x')] {
        let mut table = vec![0; 512];
        table[256 + byte] = value;
        assert_eq!((import(&table), row(&table, 1)), (Err(1), Err(1)), "byte {byte}");
        assert!(row(&table, 0).is_ok());
    }
    assert_eq!([import(&[0; 255]), import(&[0; 257])], [Err(0), Err(1)]);
    assert_eq!(import(&[]), Ok(Vec::new()));
}
