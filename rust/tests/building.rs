//! Bodies built by the builder, against append and the peer; copies, byte for byte; and refusals,
//! which leave builder and buffer as they were.

mod common;

use common::bodies::{data, good, join, part, Part};
use peer::fields::{fill_needed, stored};
use peer::random::Random;
use peer::saved::files;
use talcfeather::{
    append, fields, read, record, records, Builder, Field, Refusal, Uuid, Value, BODY_MAX, END,
};

fn add<F: FnMut(&mut [u8])>(body: &mut Builder<F>, part: &Part) -> Result<(), Refusal> {
    match part.kind {
        END if part.data.is_empty() => body.end(),
        _ => body.add(part.kind, &part.data),
    }
}

/// Fields of any types and lengths, ENDs with data among them.
fn any_parts(random: &mut Random) -> Vec<Part> {
    let any = |random: &mut Random| {
        let kind = random.number() as u8;
        Part { kind: random.pick(&[kind, kind, kind, END]), data: data(random) }
    };
    (0..random.below(12)).map(|_| any(random)).collect()
}

/// Each field as append writes it and as the peer stores it: the same answers, places and bytes, and
/// junk where nothing was built.
fn built(random: &mut Random, parts: &[Part], room: usize) -> Vec<Result<(), Refusal>> {
    let (junk, seed) = (random.bytes(room), random.number());
    let (mut ours, mut theirs) = (junk.clone(), junk.clone());
    let (mut random, mut same) = (Random(seed), Random(seed));
    let random = |fill: &mut [u8]| fill.copy_from_slice(&random.bytes(fill.len()));
    let mut body = Builder::new(&mut ours, random);
    let (mut expected, mut outcomes) = (Vec::new(), Vec::new());
    for part in parts {
        let fill = same.bytes(fill_needed(part.data.len()));
        let next = append(&mut theirs, expected.len(), part.kind, &part.data, &fill);
        if next.is_ok() {
            expected.extend(stored(part.kind, &part.data, &fill));
        }
        assert_eq!(add(&mut body, part), next.map(|_| ()));
        assert_eq!((body.place(), body.body()), (expected.len(), &expected[..]));
        outcomes.push(next.map(|_| ()));
    }
    assert!(ours == theirs && ours[expected.len()..] == junk[expected.len()..], "{parts:?}");
    outcomes
}

/// Into buffers that may be too short.
#[test]
fn as_append_does() {
    let random = &mut Random(1);
    let mut met = Vec::new();
    for _ in 0..3000 {
        let (parts, room) = (any_parts(random), random.below(400));
        met.extend(built(random, &parts, room));
    }
    for outcome in [Ok(()), Err(Refusal::Room), Err(Refusal::EndData)] {
        assert!(met.iter().filter(|met| **met == outcome).count() > 1000, "{outcome:?}");
    }
}

/// What may be added: bytes, a text, a UUID, a number's bytes.
#[test]
fn what_is_added() {
    let mut buffer = [0xEE; 112];
    let mut body = Builder::new(&mut buffer, |fill| fill.fill(9));
    body.add(record::UUID, Uuid([7; 16])).unwrap();
    body.add(record::TITLE, "Sägewerk").unwrap();
    body.add(record::PASSWORD, b"x").unwrap();
    body.add(record::PASSWORD_EXPIRY_TIME, 0x0403_0201u32.to_le_bytes()).unwrap();
    body.add(record::PROTECTED, [1]).unwrap();
    body.end().unwrap();
    let login = [
        (record::UUID, &[7; 16][..]),
        (record::TITLE, "Sägewerk".as_bytes()),
        (record::PASSWORD, b"x"),
        (record::PASSWORD_EXPIRY_TIME, &[1, 2, 3, 4]),
        (record::PROTECTED, &[1]),
        (END, b""),
    ];
    let field = |(kind, data): &(u8, &[u8])| stored(*kind, data, &vec![9; fill_needed(data.len())]);
    assert_eq!(body.body(), login.iter().flat_map(field).collect::<Vec<u8>>());
    assert_eq!(body.place(), 112);
}

fn copied(body: &[u8]) {
    let mut buffer = vec![0xEE; body.len() + 20];
    let mut again = Builder::new(&mut buffer, |_| panic!("a copy needs no random bytes"));
    for field in fields(body) {
        again.copy(&field.unwrap()).unwrap();
    }
    assert!(again.body() == body && again.place() == body.len(), "byte for byte");
    assert_eq!(buffer[body.len()..], [0xEE; 20]);
}

/// The same by records, with their ENDs.
fn copied_by_records(body: &[u8]) {
    let start = records(body).next().map_or(body.len(), |record| record.unwrap().place);
    let mut buffer = vec![0; body.len() - start];
    let mut again = Builder::new(&mut buffer, |_| {});
    for record in records(body) {
        let record = record.unwrap();
        for field in record.fields().chain(record.end()) {
            again.copy(&field).unwrap();
        }
    }
    assert!(again.body() == &body[start..], "byte for byte");
}

#[test]
fn copies() {
    let random = &mut Random(2);
    for _ in 0..500 {
        let parts = good(random);
        let body = join(random, &parts);
        copied(&body);
        copied_by_records(&body);
    }
}

#[test]
fn copies_of_saved_files() {
    let mut accepted = 0;
    for saved in files().iter().filter(|saved| saved.answer == 0) {
        let mut workspace = vec![0; saved.file.len()];
        let opened = read(&saved.file, &saved.passphrase, u32::MAX, &mut workspace).unwrap();
        copied(opened.body());
        copied_by_records(opened.body());
        accepted += 1;
    }
    assert!(accepted > 15, "{accepted} files");
}

type Body<'b> = Builder<'b, fn(&mut [u8])>;

/// Builder and buffer after a refusal are what they were.
fn refused(refusal: Refusal, room: usize, refuse: fn(&mut Body) -> Result<(), Refusal>) {
    let mut buffer = vec![0xEE; room];
    let mut body = Body::new(&mut buffer, |fill| fill.fill(9));
    body.add(record::TITLE, "Lathe").unwrap();
    let before = body.body().to_vec();
    assert_eq!(refuse(&mut body), Err(refusal));
    assert_eq!((body.place(), body.body()), (16, &before[..]));
    assert!(buffer[..16] == before && buffer[16..].iter().all(|byte| *byte == 0xEE));
}

/// A field of the caller's own making.
fn made<'b>(kind: u8, data: &'b [u8], fill: &'b [u8]) -> Field<'b> {
    Field { kind, place: 0, data, fill, value: Value::Opaque }
}

#[test]
fn refusals() {
    refused(Refusal::EndData, 64, |body| body.add(END, "x"));
    refused(Refusal::Room, 31, |body| body.end());
    refused(Refusal::Room, 32, |body| body.add(record::NOTES, [b'x'; 12]));
    refused(Refusal::Room, 31, |body| body.copy(&made(END, b"", &[0; 11])));
    refused(Refusal::EndData, 64, |body| body.copy(&made(END, b"x", &[0; 10])));
    refused(Refusal::Fill, 64, |body| body.copy(&made(record::NOTES, b"x", &[0; 11])));
    refused(Refusal::Fill, 64, |body| body.copy(&made(record::NOTES, &[b'x'; 12], &[])));
    refused(Refusal::Fill, 16, |body| body.copy(&made(END, b"", &[])));
}

/// No body is longer than the longest, whatever the buffer.
#[test]
fn the_longest_body() {
    let mut buffer = vec![0; BODY_MAX + 32];
    let mut body = Builder::new(&mut buffer, |_| {});
    assert_eq!(body.add(record::NOTES, vec![b'x'; BODY_MAX - 4]), Err(Refusal::Room));
    assert_eq!(body.place(), 0);
    body.add(record::NOTES, vec![b'x'; BODY_MAX - 5]).unwrap();
    assert_eq!(body.end(), Err(Refusal::Room));
    assert_eq!((body.place(), body.body().len()), (BODY_MAX, BODY_MAX));
}

/// Without a byte of room nothing is built, and nothing else happens.
#[test]
fn no_room() {
    let mut body = Builder::new(&mut [], |_| {});
    assert_eq!(body.end(), Err(Refusal::Room));
    let field = join(&mut Random(3), &[part(record::TITLE, b"Lathe")]);
    assert_eq!(body.copy(&fields(&field).next().unwrap().unwrap()), Err(Refusal::Room));
    assert_eq!((body.place(), body.body()), (0, &[][..]));
}
