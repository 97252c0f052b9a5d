//! Fields, header and records, of well-formed bodies and of any bytes, against the peer's walk. Each
//! time they end, and stay at their end.

mod common;

use common::bodies::{any, end, good, join, part, version, Part};
use peer::fields::{size, Value as Theirs};
use peer::random::Random;
use std::fmt::Debug;
use talcfeather::{
    fields, find, header, judge, read, record, records, write, Field, Parts, Record, Refusal, Uuid,
    Value, END,
};

type Item<'b> = Result<Field<'b>, Refusal>;

/// A record, taken apart: number, place, fields, END.
type Apart<'b> = (u64, usize, Vec<Field<'b>>, Option<Field<'b>>);

fn value(theirs: Theirs, data: &[u8]) -> Value<'_> {
    match theirs {
        Theirs::Empty => Value::Empty,
        Theirs::End => Value::End,
        Theirs::Uuid(..) => Value::Uuid(Uuid(data.try_into().unwrap())),
        Theirs::Time(time) => Value::Time(time),
        Theirs::Number(number) => Value::Number(number),
        Theirs::Flag(flag) => Value::Flag(flag),
        Theirs::Text => Value::Text(std::str::from_utf8(data).unwrap()),
        Theirs::BadText(at) => Value::BadText(at),
        Theirs::Misshapen => Value::Misshapen,
        Theirs::Opaque => Value::Opaque,
    }
}

/// The fields that the peer walks, and then its refusal, if it refuses.
fn walked(body: &[u8]) -> (Vec<Field<'_>>, Option<Refusal>) {
    let (mut at, mut fields) = (peer::fields::Cursor { place: 0, in_record: false }, Vec::new());
    loop {
        match peer::fields::walk(body, at) {
            Ok(None) => return (fields, None),
            Err(number) => return (fields, Refusal::from_number(number)),
            Ok(Some((field, next))) => {
                let data = field.data(body);
                let fill = &body[field.place + 5 + data.len()..field.place + size(data.len())];
                let (kind, place, value) = (field.kind, field.place, value(field.value, data));
                fields.push(Field { kind, place, data, fill, value });
                at = next;
            }
        }
    }
}

/// All items. There are no more than a body of that length can have, and none after the end.
fn all<T>(length: usize, mut items: impl Iterator<Item = T>) -> Vec<T> {
    let taken: Vec<T> = items.by_ref().take(length / 16 + 2).collect();
    for _ in 0..3 {
        assert!(items.next().is_none(), "an item after the end");
    }
    taken
}

fn with<T>(items: impl IntoIterator<Item = T>, last: Option<Refusal>) -> Vec<Result<T, Refusal>> {
    items.into_iter().map(Ok).chain(last.map(Err)).collect()
}

fn header_of<'b>(walked: &[Field<'b>], refusal: Option<Refusal>) -> Vec<Item<'b>> {
    match walked.iter().position(|field| field.kind == END) {
        Some(end) => with(walked[..end].to_vec(), None),
        None => with(walked.to_vec(), refusal.or(Some(Refusal::Body))),
    }
}

fn records_of<'b>(
    walked: &[Field<'b>],
    refusal: Option<Refusal>,
) -> Vec<Result<Apart<'b>, Refusal>> {
    let sections = walked.split_inclusive(|field| field.kind == END).skip(1).zip(0..);
    let apart = sections.map(|(section, number)| {
        let (end, fields): (Vec<_>, Vec<_>) = section.iter().partition(|field| field.kind == END);
        (number, section[0].place, fields, end.first().copied())
    });
    let ended = walked.last().is_some_and(|field| field.kind == END);
    let cut = (!ended).then_some(Refusal::Body);
    with(apart, refusal.or(cut))
}

fn apart<'b>(record: Record<'b>) -> Apart<'b> {
    let fields = all(1 << 16, record.fields());
    same_of_each_type(&record, &fields);
    (record.number, record.place, fields, record.end())
}

/// What is asked of a record by type is what its first field of it says.
fn same_of_each_type(record: &Record, fields: &[Field]) {
    let others = [record::UUID, record::TITLE, record::USER, 0xfe, END];
    for kind in fields.iter().map(|field| field.kind).chain(others) {
        let first = fields.iter().find(|field| field.kind == kind).copied();
        assert_eq!(record.first(kind), first, "type {kind:02x}");
        let text = first.and_then(|field| match field.value {
            Value::Text(text) => Some(text),
            _ => None,
        });
        assert!(record.text(kind) == text, "type {kind:02x}");
    }
    let uuid = fields.iter().find(|field| field.kind == record::UUID);
    let uuid = uuid.and_then(|field| field.data.try_into().ok().map(Uuid));
    assert_eq!(record.uuid(), uuid);
}

/// The iterators give what the peer walks; how many records, and the refusal.
fn same(body: &[u8]) -> (usize, Option<Refusal>) {
    let length = body.len();
    let (walked, refusal) = walked(body);
    assert_eq!(all(length, fields(body)), with(walked.clone(), refusal));
    assert_eq!(all(length, header(body)), header_of(&walked, refusal));
    let ours: Vec<_> = all(length, records(body)).into_iter().map(|r| r.map(apart)).collect();
    let theirs = records_of(&walked, refusal);
    assert_eq!(ours, theirs);
    let last = theirs.iter().rev().find_map(|record| record.as_ref().err());
    (theirs.iter().flatten().count(), last.copied())
}

#[test]
fn well_formed_bodies() {
    let random = &mut Random(1);
    for _ in 0..400 {
        let parts = good(random);
        let body = join(random, &parts);
        let counts = judge(&body).unwrap();
        assert_eq!(same(&body), (counts.records as usize, None));
        assert_eq!(header(&body).count() as u64, counts.header_fields);
        for record in records(&body).flatten() {
            let found = find(&body, record.uuid().unwrap()).unwrap().found.unwrap();
            assert_eq!(apart(found), apart(record));
            assert_eq!(found, record);
        }
        let all: Vec<Record> = records(&body).flatten().collect();
        assert!(all.windows(2).all(|pair| pair[0] != pair[1]));
    }
}

/// Version, END, and two records, the first with an empty text, a bad one and two user names.
fn two() -> Vec<Part> {
    let first = [
        part(record::UUID, &[7; 16]),
        part(record::TITLE, b"La\xffhe"),
        part(record::GROUP, b""),
        part(record::USER, b"worker"),
        part(record::USER, b"another"),
        part(record::PASSWORD, b"x"),
        end(),
    ];
    let second = [
        part(record::TITLE, b"Mill"),
        part(record::PASSWORD, b"y"),
        part(record::UUID, &[8; 16]),
        end(),
    ];
    [&[version(), end()], &first[..], &second].concat()
}

#[test]
fn what_a_record_says() {
    let body = join(&mut Random(2), &two());
    let all: Vec<Record> = records(&body).map(Result::unwrap).collect();
    let [first, second] = all[..] else { panic!("{all:?}") };
    assert_eq!([first.number, second.number], [0, 1]);
    assert_eq!([first.place, second.place], [32, 160]);
    assert_eq!([first.uuid(), second.uuid()], [[7; 16], [8; 16]].map(|uuid| Some(Uuid(uuid))));
    let texts = [record::TITLE, record::GROUP, record::USER, record::NOTES];
    assert_eq!(texts.map(|kind| first.text(kind)), [None, None, Some("worker"), None]);
    assert_eq!(texts.map(|kind| second.text(kind)), [Some("Mill"), None, None, None]);
    let values = texts.map(|kind| first.first(kind).map(|field| field.value));
    let [bad, user] = [Value::BadText(2), Value::Text("worker")];
    assert_eq!(values, [Some(bad), Some(Value::Empty), Some(user), None]);
}

/// Where each start of that body ends: how many records it has, and by which refusal.
#[test]
fn every_start_of_a_body() {
    let body = join(&mut Random(3), &two());
    let starts: Vec<usize> = fields(&body).map(|field| field.unwrap().place).collect();
    assert_eq!(body.len(), 240);
    for length in 0..=body.len() {
        let records = if length < 32 + 32 { 0 } else { 1 + usize::from(length >= 160 + 16) };
        let refusal = match length {
            32 | 160 | 240 => None,
            _ if starts.contains(&length) => Some(Refusal::Body),
            _ => Some(Refusal::Field),
        };
        assert_eq!(same(&body[..length]), (records, refusal), "the first {length} bytes");
    }
}

#[test]
fn every_start_of_any_body() {
    let random = &mut Random(4);
    for _ in 0..20 {
        let body = any(random);
        for length in 0..=body.len() {
            same(&body[..length]);
        }
    }
}

/// Blocks that are often fields of little data, often ENDs, and sometimes no field at all.
fn blocks(random: &mut Random) -> Vec<u8> {
    let mut body = Vec::new();
    for _ in 0..random.below(12) {
        let any = random.number() as u8;
        let length =
            [random.pick(&[0, 0, 0, 1, 11, 12, any]), 0, 0, random.pick(&[0, 0, 0, 0, 0xff])];
        let kind = random.pick(&[END, END, END, record::UUID, record::TITLE, any]);
        body.extend(length.into_iter().chain([kind]).chain(random.bytes(11)));
    }
    let cut = if random.one_in(4) { random.below(16) } else { 0 };
    body.truncate(body.len().saturating_sub(cut));
    body
}

#[test]
fn any_bytes() {
    let random = &mut Random(5);
    let mut met = [0; 4];
    for _ in 0..4000 {
        let length = random.below(300);
        let body = match random.below(3) {
            0 => any(random),
            1 => random.bytes(length),
            _ => blocks(random),
        };
        let (records, refusal) = same(&body);
        met[0] += u32::from(refusal.is_none());
        met[1] += u32::from(refusal == Some(Refusal::Body));
        met[2] += u32::from(refusal == Some(Refusal::Field));
        met[3] += u32::from(refusal.is_some() && records > 0);
    }
    assert!(met.iter().all(|count| *count > 300), "{met:?}");
}

/// What a file that was read gives is what its body gives.
#[test]
fn of_a_file_that_was_read() {
    let body = join(&mut Random(6), &[version(), part(0x09, b"Floor 2"), end()]);
    let body = [body, join(&mut Random(7), &two()[2..])].concat();
    let parts = Parts { salt: [1; 32], iter: 2048, k: [2; 32], l: [3; 32], iv: [4; 16] };
    let (mut file, mut workspace) = (vec![0; body.len() + 200], vec![0xEE; body.len() + 9]);
    assert_eq!(write(b"pass", &parts, &body, &mut file).unwrap(), file.len());
    let opened = read(&file, b"pass", 2048, &mut workspace).unwrap();
    assert!(opened.body() == body);
    assert_eq!((opened.counts.header_fields, opened.counts.records), (2, 2));
    assert!(opened.fields().eq(fields(&body)) && opened.header().eq(header(&body)));
    let ours: Vec<_> = opened.records().map(|record| apart(record.unwrap())).collect();
    let theirs: Vec<_> = records(&body).map(|record| apart(record.unwrap())).collect();
    assert_eq!(ours, theirs);
    let mill = opened.find(Uuid([8; 16])).unwrap();
    assert_eq!(mill.found.and_then(|mill| mill.text(record::TITLE)), Some("Mill"));
    assert_eq!(opened.find(Uuid([9; 16])).unwrap().visited, fields(&body).count() as u64);
}

/// Of the same file they are equal, whatever stands behind the body; not of another.
#[test]
fn files_that_were_read() {
    let body = join(&mut Random(9), &two());
    let parts = Parts { salt: [1; 32], iter: 2048, k: [2; 32], l: [3; 32], iv: [4; 16] };
    let others = [
        (parts.clone(), join(&mut Random(10), &two())),
        (Parts { k: [5; 32], ..parts.clone() }, body.clone()),
        (Parts { l: [5; 32], ..parts.clone() }, body.clone()),
    ];
    let file_of = |parts: &Parts, body: &[u8]| {
        let mut file = vec![0; body.len() + 200];
        write(b"pass", parts, body, &mut file).unwrap();
        file
    };
    let file = file_of(&parts, &body);
    let [mut first, mut second] = [0, 9].map(|more| vec![0xEE; body.len() + more]);
    let opened = read(&file, b"pass", 2048, &mut first).unwrap();
    assert!(read(&file, b"pass", 2048, &mut second).unwrap() == opened);
    for (parts, body) in others {
        let mut third = vec![0; body.len()];
        assert!(read(&file_of(&parts, &body), b"pass", 2048, &mut third).unwrap() != opened);
    }
    assert_eq!(read(&file, b"past", 2048, &mut second), Err(Refusal::Wrong));
}

/// No byte of a body is in what is printed of it: it may be a password.
#[test]
fn nothing_is_printed() {
    let password = "correct horse";
    let parts = [version(), end(), part(record::PASSWORD, password.as_bytes()), end()];
    let body = join(&mut Random(8), &parts);
    let login = records(&body).next().unwrap().unwrap();
    let field = login.first(record::PASSWORD).unwrap();
    let things: [&dyn Debug; 7] = [
        &login,
        &field,
        &field.value,
        &login.fields(),
        &records(&body),
        &fields(&body),
        &header(&body),
    ];
    for thing in things {
        let said = format!("{thing:?} {thing:#?}");
        assert!(!said.contains("horse") && !said.contains("104"), "{said}");
    }
}
