//! Files saved by other programs, through the C boundary: answers, counts, listings, and each
//! accepted one written again.

mod common;

use common::calls::{import_ours, import_theirs, row_ours, row_theirs, Export, Read, Write};
use common::tables::NOW;
use peer::random::Random;
use peer::saved::{files, hex, unhex, Listing, Saved};
use talcfeather::{
    fields, find, read_counted, record, records, row, walk, write, Cursor, Opened, Parts, Search,
    Uuid, Value, END,
};

const LISTED: [u8; 6] =
    [record::GROUP, record::TITLE, record::USER, record::NOTES, record::PASSWORD, record::URL];

/// The listing by the library's own walk: group, title, user, notes, password, URL.
fn listing(body: &[u8]) -> Listing {
    let mut records = Listing::new();
    let (mut at, mut uuid, mut texts) = (Cursor::START, String::new(), Vec::new());
    while let Some((field, next)) = walk(body, at).expect("a field") {
        match (at.in_record, field.kind, field.value) {
            (true, 0x01, _) => uuid = hex(field.data),
            (true, 0x02..=0x06 | 0x0d, Value::Text(text)) => {
                assert_eq!(text.as_bytes(), field.data);
                texts.push((hex(&[field.kind]), text.to_string()));
            }
            (true, END, _) => {
                records.insert(std::mem::take(&mut uuid), texts.drain(..).collect());
            }
            _ => {}
        }
        at = next;
    }
    records
}

/// The same by its records.
fn listing_of_records(body: &[u8]) -> Listing {
    let texts = |login: &talcfeather::Record| {
        let text = |kind| Some((hex(&[kind]), login.text(kind)?.to_string()));
        LISTED.into_iter().filter_map(text).collect()
    };
    let login = |login: talcfeather::Record| (login.uuid().unwrap().to_string(), texts(&login));
    records(body).map(|record| login(record.expect("a record"))).collect()
}

/// The fields up to a record's UUID, or all, by the library's own walk.
fn walked(body: &[u8], uuid: &[u8; 16]) -> u64 {
    let (mut at, mut fields) = (Cursor::START, 0);
    while let Some((field, next)) = walk(body, at).expect("a field") {
        fields += 1;
        if at.in_record && field.kind == 0x01 && field.data == uuid {
            break;
        }
        at = next;
    }
    fields
}

/// The same by its fields.
fn walked_on(body: &[u8], uuid: Uuid) -> u64 {
    let (mut in_record, mut walked) = (false, 0);
    for field in fields(body) {
        let field = field.expect("a field");
        walked += 1;
        if in_record && field.kind == record::UUID && field.data == uuid.0 {
            break;
        }
        in_record |= field.kind == END;
    }
    walked
}

fn finds_each_record(opened: &Opened, listing: &Listing) {
    let mut numbers = Vec::new();
    for uuid in listing.keys() {
        let (text, uuid) = (uuid, unhex(uuid).try_into().unwrap());
        let search = find(opened.body(), &uuid).unwrap();
        let theirs = peer::body::find(opened.body(), &uuid).unwrap();
        assert_eq!([walked(opened.body(), &uuid), theirs.visited], [search.visited; 2]);
        assert_eq!(walked_on(opened.body(), text.parse().unwrap()), search.visited);
        let (found, theirs) = (search.found.expect("the record"), theirs.found.unwrap());
        assert_eq!((found.number, found.place), (theirs.record, theirs.place));
        numbers.push(found.number);
    }
    numbers.sort();
    assert_eq!(numbers, (0..opened.counts.records).collect::<Vec<_>>());
    let none = Search { found: None, visited: walked(opened.body(), &[0; 16]) };
    assert_eq!(find(opened.body(), &[0; 16]), Ok(none));
    assert_eq!(walked_on(opened.body(), Uuid::default()), none.visited);
}

fn check(saved: &Saved) {
    let mut workspace = vec![0xEE; saved.file.len()];
    let (outcome, work) = read_counted(&saved.file, &saved.passphrase, u32::MAX, &mut workspace);
    let number = outcome.as_ref().err().map_or(0, |refusal| refusal.number());
    assert_eq!(number, saved.answer);
    let Ok(opened) = outcome else { return };
    let counts = (opened.counts.header_fields, opened.counts.records);
    assert_eq!(counts, (saved.header_fields, saved.records));
    let first = (saved.passphrase.len() as u64 + 40) / 64 + 1;
    assert_eq!(work.compressions, first + u64::from(saved.iter) + 1);
    assert_eq!(work.blocks, 4 + (saved.file.len() as u64 - 200) / 16);
    assert_eq!(listing(opened.body()), saved.listing);
    assert_eq!(listing_of_records(opened.body()), saved.listing);
    finds_each_record(&opened, &saved.listing);

    let parts = Parts::of(&saved.file, &opened).unwrap();
    let mut again = vec![0xEE; saved.file.len() + 9];
    let length = write(&saved.passphrase, &parts, opened.body(), &mut again);
    assert_eq!(length, Ok(saved.file.len()));
    assert!(again[..saved.file.len()] == saved.file, "written again, byte for byte");
    assert_eq!(again[saved.file.len()..], [0; 9]);
}

#[test]
fn saved_files() {
    for saved in files() {
        println!("{}", saved.name);
        check(&saved);
    }
}

/// The same through the raw calls, between guards.
#[test]
fn saved_files_between_guards() {
    let random = &mut Random(1);
    for saved in files() {
        let (file, passphrase) = (&saved.file, &saved.passphrase);
        for room in [file.len() - 200, file.len() - 201, file.len()] {
            let case = Read { file, passphrase, ceiling: saved.iter, room };
            assert_eq!(case.ours(random), case.theirs(), "{}", saved.name);
        }
        let (Ok(opened), _) = peer::safe::read(file, passphrase, u32::MAX, file.len()) else {
            continue;
        };
        let parts = saved.parts(&opened);
        let case = Write { parts: &parts, body: &opened.body, room: file.len() };
        assert!(case.ours(random).memory == *file, "{}", saved.name);
    }
}

/// The table of each accepted one: its rows are the listing's own titles, users and groups, and none of
/// its passwords is in there.
#[test]
fn tables_of_saved_files() {
    let random = &mut Random(2);
    let mut rows = 0;
    for saved in files() {
        let (Ok(opened), _) =
            peer::safe::read(&saved.file, &saved.passphrase, u32::MAX, saved.file.len())
        else {
            continue;
        };
        let output = random.bytes(256 * saved.records as usize);
        let case = Export { body: &opened.body, now: NOW, output: &output };
        let ours = case.ours(random);
        assert_eq!(ours, case.theirs(), "{}", saved.name);
        assert_eq!(ours.number, 0, "{}", saved.name);
        rows += listed(&ours.memory, &saved.listing, random);
    }
    assert!(rows > 400, "{rows} rows");
}

/// Each row against the listing; how many there are.
fn listed(table: &[u8], listing: &Listing, random: &mut Random) -> usize {
    assert_eq!(import_ours(table, random), import_theirs(table));
    for number in 0..listing.len() {
        assert_eq!(row_ours(table, number, random), row_theirs(table, number));
        let row = row(table, number).unwrap().expect("a row");
        let texts = &listing[&row.uuid.to_string()];
        let text = |kind: &str| texts.get(kind).map_or("", String::as_str);
        assert_eq!([row.title, row.user, row.group], ["03", "04", "02"].map(text));
        let password = text("06").as_bytes();
        assert!(!table.windows(password.len()).any(|part| part == password), "{}", text("06"));
    }
    assert_eq!(row(table, listing.len()), Ok(None));
    listing.len()
}
