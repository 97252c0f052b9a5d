//! `talc new`, `add`, `set`, `remove` and `passphrase` as processes: what is written, field by field,
//! as the independent implementation reads it.

#[path = "../../tests/common/mod.rs"]
mod common;
mod process;
mod stored;

use common::bodies::{data, good, join, part, Part};
use peer::fields::END;
use peer::random::Random;
use process::*;
use std::collections::BTreeSet;
use std::fs;
use std::os::unix::fs::MetadataExt;
use stored::*;

/// Bodies with fields of every type, in any order, known or not, and a record with the known UUID.
fn any_body(seed: u64) -> Vec<u8> {
    let random = &mut Random(seed);
    let mut parts = good(random);
    let every = (0x01..END).filter(|kind| ![0x01, 0x03, 0x06, 0x15].contains(kind));
    let record = [part(0x03, b"Printer"), part(0x06, b"old"), part(0x01, &[9; 16])];
    parts.extend(record);
    parts.extend(every.map(|kind| Part { kind, data: data(random) }));
    parts.push(part(END, &[]));
    // User and host are another test's.
    let mut header = true;
    parts.retain(|part| {
        let told = header && matches!(part.kind, 0x05 | 0x07 | 0x08);
        header &= part.kind != END;
        !told
    });
    join(random, &parts)
}

#[test]
fn set_changes_what_is_asked_for() {
    for seed in 0..20 {
        let office = Office::with("set-any", &safe_around(&any_body(seed), 2048));
        let mut expected = office.sections();
        let last = expected.len() - 1;
        let uuid = "09090909-0909-0909-0909-090909090909";
        let words =
            [uuid, "title=Prägepresse", "url=https://example.org/?a=b", "expires=2027-06-30"];
        let out = office.done("set", &words);
        assert!(out.contains("\"Printer\": changed title, url, expires; the old"), "{out}");
        stamp(&mut expected[0]);
        put(&mut expected[last], fresh(0x03, "Prägepresse"));
        put(&mut expected[last], fresh(0x0d, "https://example.org/?a=b"));
        put(&mut expected[last], time(0x0a, 1_814_313_600));
        put(&mut expected[last], time(0x0c, NOW));
        assert_same(&office.sections(), &expected);
    }
}

#[test]
fn set_password() {
    let office = Office::new("set-password");
    let mut expected = office.sections();
    let out = office.done("set", &["drehbank", "password", &office.password]);
    assert!(out.contains("changed password;") && !out.contains("a new"), "{out}");
    stamp(&mut expected[0]);
    put(&mut expected[1], fresh(0x06, "a new password"));
    put(&mut expected[1], time(0x0c, NOW));
    put(&mut expected[1], time(0x08, NOW));
    assert_same(&office.sections(), &expected);
}

#[test]
fn set_removes_and_adds() {
    let office = Office::new("set-removes");
    let mut expected = office.sections();
    let notes = "one\ntwo \\ three";
    let words = ["0", "user=", "expires=never", "group=", &format!("notes={notes}"), "email=a@b.c"];
    office.done("set", &words);
    stamp(&mut expected[0]);
    expected[1].retain(|field| ![0x04, 0x0a, 0x02].contains(&field.kind));
    put(&mut expected[1], fresh(0x05, notes));
    put(&mut expected[1], fresh(0x14, "a@b.c"));
    put(&mut expected[1], time(0x0c, NOW));
    assert_same(&office.sections(), &expected);
}

/// Of several fields of one type the first is set and the others go: nothing shows the old value.
#[test]
fn set_leaves_one() {
    let twice = [part(0x04, b"a"), part(0xee, b"x"), part(0x04, b"b"), part(0x04, b"a")];
    let office = Office::of("set-one", &one_login(&[], &twice));
    let mut expected = office.sections();
    office.done("set", &["0", "user=a"]);
    stamp(&mut expected[0]);
    let user = expected[1][3].clone();
    expected[1].retain(|field| field.kind != 0x04);
    expected[1].insert(3, user);
    put(&mut expected[1], time(0x0c, NOW));
    assert_same(&office.sections(), &expected);
    office.done("set", &["0", "user="]);
    assert!(office.sections()[1].iter().all(|field| field.kind != 0x04));
}

/// What is already so is not written: the file is the same one, and there is no backup.
#[test]
fn nothing_to_change() {
    let empty =
        [part(0x02, b""), part(0x04, b"print"), part(0x0a, &1_814_313_600u32.to_le_bytes())];
    let office = Office::of("set-nothing", &one_login(&[], &empty));
    fs::write(office.folder.0.join("password"), b"old").unwrap();
    let before = (fs::read(&office.file).unwrap(), fs::metadata(&office.file).unwrap().ino());
    let words = ["0", "title=Printer", "user=print", "group=", "notes=", "expires=2027-06-30"];
    let words = [&words[..], &["password", &office.password]].concat();
    let out = office.done("set", &words);
    assert!(out.contains("record 0, \"Printer\": nothing to change; not written"), "{out}");
    let after = (fs::read(&office.file).unwrap(), fs::metadata(&office.file).unwrap().ino());
    assert!(before == after);
    assert!(!office.backup().exists());
}

#[test]
fn add() {
    let office = Office::new("add");
    let mut expected = office.sections();
    let fields = ["group=Floor 2.Mills", "title=Mill 1", "user=müller", "notes=a\nb", "url=x:"];
    let more = ["email=m@example.org", "expires=2106-02-07", "password", &office.password];
    let out = office.done("add", &[&fields[..], &more].concat());
    let found = office.sections();
    let uuid = found[3][0].data.clone();
    assert_eq!((uuid.len(), uuid[6] >> 4, uuid[8] >> 6), (16, 4, 2), "of version 4");
    assert!(out.contains(&format!("added record 2, \"Mill 1\", {}; ", peer::saved::hex(&uuid))));
    stamp(&mut expected[0]);
    expected.push(vec![
        fresh(0x01, uuid),
        fresh(0x02, "Floor 2.Mills"),
        fresh(0x03, "Mill 1"),
        fresh(0x04, "müller"),
        fresh(0x05, "a\nb"),
        fresh(0x06, "a new password"),
        time(0x07, NOW),
        time(0x08, NOW),
        time(0x0a, 4_294_944_000),
        time(0x0c, NOW),
        fresh(0x0d, "x:"),
        fresh(0x14, "m@example.org"),
        fresh(END, ""),
    ]);
    assert_same(&found, &expected);
    // The word is implied: a login without a password is none.
    office.done("add", &["title=Mill 2", &office.password]);
    assert_eq!(office.sections().len(), 5);
}

#[test]
fn remove() {
    for (entry, number) in [("Printer", 2), ("0123456789ab", 1), ("0", 1)] {
        let office = Office::new("remove");
        let mut expected = office.sections();
        let out = office.done("remove", &[entry]);
        assert!(out.contains(&format!("removed record {}, \"", number - 1)), "{out}");
        stamp(&mut expected[0]);
        expected.remove(number);
        assert_same(&office.sections(), &expected);
    }
}

#[test]
fn passphrase() {
    let office = Office::new("passphrase");
    let mut expected = office.sections();
    let new = office.folder.put("new", "Ein neuer Sägeplan\n".as_bytes());
    let option = format!("--new-passphrase-file={}", path(&new));
    let out = office.done("passphrase", &[&option]);
    assert!(out.contains("the old file, under the old passphrase, is "), "{out}");
    stamp(&mut expected[0]);
    put(&mut expected[0], time(0x13, NOW));
    assert_same(&sections(&office.file, "Ein neuer Sägeplan".as_bytes()), &expected);
    assert_eq!(office.talc("check", &[]).status, 64, "--now goes not with check");
    let ended = talc(&["check", path(&office.file), "--passphrase-stdin"], PASSPHRASE);
    assert_eq!(ended.status, 8);
    assert!(fs::read(office.backup()).unwrap() == safe());
    assert_eq!(iter(&office), 2048);
}

fn iter(office: &Office) -> u32 {
    u32::from_le_bytes(fs::read(&office.file).unwrap()[36..40].try_into().unwrap())
}

/// The file's own, unless another is given.
#[test]
fn rounds() {
    let office = Office::with("rounds", &safe_around(&body(), 2077));
    office.done("remove", &["1"]);
    assert_eq!(iter(&office), 2077);
    let new = format!("--new-passphrase-file={}", path(&office.passphrase));
    office.done("passphrase", &["--iter", "4099", &new]);
    assert_eq!(iter(&office), 4099);
    office.done("remove", &["0"]);
    assert_eq!((iter(&office), office.sections().len()), (4099, 1));
    let made = office.folder.0.join("new.psafe3");
    for (given, status) in [("2047", 64), ("0", 64), ("4294967296", 64), ("2048", 0)] {
        let words = ["new", path(&made), "--iter", given, &new];
        assert_eq!(talc(&words, b"").status, status, "{given}");
        assert_eq!(made.exists(), status == 0);
    }
}

#[test]
fn new() {
    let folder = Folder::new("new");
    let (file, stored) = (folder.0.join("new.psafe3"), folder.put("passphrase", PASSPHRASE));
    let given = ["--new-passphrase-file", path(&stored)];
    let words = [&["new", path(&file)], &given[..], &AT_NOW].concat();
    let ended = talc(&words, b"");
    assert_eq!(ended.status, 0, "{}", ended.err);
    let bytes = fs::read(&file).unwrap();
    assert_eq!(bytes[36..40], 262_144u32.to_le_bytes());
    assert_eq!(fs::metadata(&file).unwrap().mode() & 0o777, 0o600);
    let found = sections(&file, PASSPHRASE);
    let header: Vec<u8> = found[0].iter().map(|field| field.kind).collect();
    assert_eq!((found.len(), &header[..]), (1, &[0, 1, 4, 6, 7, 8, 0x13, END][..]));
    assert_eq!(found[0][0].data, [0x0e, 0x03]);
    assert_eq!((found[0][1].data[6] >> 4, found[0][1].data[8] >> 6), (4, 2));
    assert_eq!(found[0][2].data, NOW.to_le_bytes());
    assert_eq!(found[0][3].data, what().data);
    assert_eq!(found[0][6].data, NOW.to_le_bytes());
    let ended = talc(&words, b"");
    assert_eq!((ended.status, ended.out.as_str()), (73, ""));
    assert!(ended.err.contains("is there already"), "{}", ended.err);
    assert!(fs::read(&file).unwrap() == bytes);
    assert_eq!(folder.names(), ["new.psafe3", "passphrase"]);
}

/// Salt, keys and initial vector are fresh at every save, and so is the fill of what is new.
#[test]
fn fresh_values() {
    let (mut values, mut fills) = (BTreeSet::new(), BTreeSet::new());
    for number in 0..8 {
        let office = Office::new(&format!("fresh-{number}"));
        office.done("set", &["Printer", "title=A"]);
        let (file, opened) = (fs::read(&office.file).unwrap(), opened(&office.file, PASSPHRASE));
        let parts = [&file[4..36], &opened.k, &opened.l, &file[136..152]];
        values.extend(parts.map(<[u8]>::to_vec));
        let sections = office.sections();
        let new = [&sections[0][1], &sections[2][1]];
        assert_eq!((new[0].kind, new[1].kind, &new[1].data[..]), (0x04, 0x03, &b"A"[..]));
        fills.extend(new.map(|field| field.fill.clone().unwrap()));
    }
    assert_eq!((values.len(), fills.len()), (8 * 4, 8 * 2));
    let own = opened(&Office::new("fresh-own").file, PASSPHRASE);
    assert!(!values.contains(&own.k[..]) && !values.contains(&[1; 32][..]));
}

/// A record that its safe protects is neither changed nor removed; one on which another rests is not
/// removed.
#[test]
fn protected_and_needed() {
    let office = Office::of("protected", &one_login(&[], &[part(0x15, &[1])]));
    for (command, words) in [("set", &["0", "title=A"][..]), ("remove", &["0"])] {
        let ended = office.talc(command, words);
        assert_eq!((ended.status, ended.out.as_str()), (73, ""));
        assert!(ended.err.contains("record 0, \"Printer\" is protected"), "{}", ended.err);
    }
    for form in ["[[{}]]", "[~{}~]"] {
        let alias = form.replace("{}", &"09".repeat(16));
        let others = [part(END, &[]), part(0x01, &[8; 16]), part(0x03, b"Alias")];
        let login = [&others[..], &[part(0x06, alias.as_bytes())]].concat();
        let office = Office::of("needed", &one_login(&[], &login));
        let ended = office.talc("remove", &["0"]);
        assert_eq!((ended.status, ended.out.as_str()), (73, ""));
        assert!(ended.err.contains("record 1, \"Alias\" takes its password"), "{}", ended.err);
        office.done("set", &["0", "title=A"]);
        office.done("remove", &["1"]);
        office.done("remove", &["0"]);
    }
    let office = Office::of("not-protected", &one_login(&[], &[part(0x15, &[0])]));
    office.done("remove", &["0"]);
}

/// A safe that is full takes no more, and says so.
#[test]
fn full() {
    let notes = vec![b'n'; 4_194_096 - 16 * 8];
    let office = Office::of("full", &one_login(&[], &[part(0x05, &notes)]));
    let before = fs::read(&office.file).unwrap();
    assert!(before.len() > 4_194_000);
    let ended = office.talc("add", &["title=A", &office.password]);
    assert_eq!((ended.status, ended.out.as_str()), (3, ""), "{}", ended.err);
    assert!(ended.err.contains("keep less in one safe"), "{}", ended.err);
    assert!(fs::read(&office.file).unwrap() == before);
    assert_eq!(office.folder.names(), ["a.psafe3", "passphrase", "password"]);
    office.done("set", &["0", "notes="]);
    office.done("add", &["title=A", &office.password]);
}
