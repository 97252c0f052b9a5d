//! The header and the examples, compiled as the README says, with every warning an error.

mod common;

use common::compiled::{compiled, languages, root, run};
use common::header;
use peer::fields::{all, size, Field, END};
use std::fs;
use std::path::{Path, PathBuf};
use talcfeather::Refusal;

#[test]
fn every_call() {
    let told = "1 1 0 11 3 12 9 9 19 19 0 16 0 0 0 1 1 5 0 0 16 1 ".to_string();
    let told = told + "5 32 0 1 0 32 3 0 0 0 0 6 0 0 0 1 2 0 1 5 0 1 3 0 1 0 0 ";
    let told = told + "1 1247505533 0 1 1247505533 0 1 4275878552 0 0 0 1 0 0 1 9 9 0 112 ";
    let told = told + "9 3 0 0 0 18 18 0 1 0 1 0 1 1 0 5 80 72 -2\n";
    for language in languages() {
        let program = compiled(language, "rust/tests/header.c");
        assert_eq!(run(&program, &[]), (0, told.clone()));
    }
}

/// Linked whole, the library needs nothing from outside but what alone.c has; nor does the probe.
#[test]
fn memcpy_and_memset_alone() {
    let alone = ["-std=c99", "-ffreestanding", "-nostdlib", "-static", "-Wl,--whole-archive"];
    for probe in [&[][..], &["target/staticlib/libprobe.a"]] {
        compiled(&[&alone, probe].concat(), "rust/tests/alone.c");
    }
}

/// What `told` says of these numbers, a line each; what it says behind them is the same each time.
fn lines(what: &str, numbers: &[u64]) -> Vec<String> {
    let words: Vec<String> = numbers.iter().map(u64::to_string).collect();
    let arguments: Vec<&str> =
        std::iter::once(what).chain(words.iter().map(String::as_str)).collect();
    let mut told = Vec::new();
    for language in languages() {
        let (status, out) = run(&compiled(language, "rust/tests/told.c"), &arguments);
        assert_eq!(status, 0);
        told = out.lines().map(String::from).collect();
        assert_eq!(told.split_off(numbers.len()), ["32 15 21", "1 1 1"]);
    }
    told
}

/// The same words as in Rust, for every number that there is and for others.
#[test]
fn refusals_in_words() {
    let numbers: Vec<u64> = (0..25).chain([1 << 16, u64::from(u32::MAX)]).collect();
    let told = lines("refusals", &numbers);
    assert_eq!(told[0], "not refused: nothing to do");
    for (number, told) in numbers.iter().zip(&told).skip(1) {
        let refusal = Refusal::from_number(*number as u32).expect("no 0");
        assert_eq!(*told, format!("{}: {}", refusal.meaning(), refusal.advice()));
    }
}

/// Around every block's end, the largest lengths, and the first for which no number holds the size.
#[test]
fn fill_and_size() {
    let most = u64::MAX - 20;
    let numbers: Vec<u64> = (0..50).chain([4_194_091, 1 << 32, most, most + 1, u64::MAX]).collect();
    for (number, told) in numbers.iter().zip(lines("fields", &numbers)) {
        let (fill, size) = told.split_once(' ').unwrap();
        let (fill, size): (u64, u64) = (fill.parse().unwrap(), size.parse().unwrap());
        let whole = u128::from(*number) + 5 + u128::from(fill);
        assert!(fill < 16 && whole % 16 == 0, "{number}");
        assert_eq!(size, u64::try_from(whole).unwrap_or(0), "{number}");
    }
}

/// The offsets that the comment on a call lists, under "The answer".
fn listed(text: &str, call: &str) -> Vec<u64> {
    let before = text.split(&format!("\nuint32_t talc_{call}(")).next().unwrap();
    let comment = before.rsplit("/*\n").next().unwrap();
    let list = comment.split("The answer, ").nth(1).expect("a list").lines().skip(1);
    let offset = |line: &str| line.strip_prefix(" * ")?.get(..4)?.trim().parse().ok();
    list.take_while(|line| *line != " *").filter_map(offset).collect()
}

/// Each offset that is described has a name, and each name an offset; and all stay within the answer.
#[test]
fn names_of_offsets() {
    let (text, macros) = (header::text(), header::macros());
    let calls = macros.keys().filter_map(|name| name.strip_suffix("_ANSWER"));
    let calls: Vec<&str> = calls.map(|name| name.strip_prefix("TALC_").unwrap()).collect();
    assert_eq!(calls.len(), 9);
    for call in calls {
        let prefix = format!("TALC_{call}_AT_");
        let named = macros.iter().filter(|(name, _)| name.starts_with(&prefix));
        let mut named: Vec<u64> = named.map(|(_, offset)| *offset).collect();
        named.sort();
        let mut listed = listed(&text, &call.to_lowercase());
        if call == "ROW" {
            // A UUID has one name, and two lines.
            listed.retain(|offset| *offset != 16);
        }
        assert_eq!(named, listed, "{call}");
        assert!(*named.last().unwrap() < macros[&format!("TALC_{call}_ANSWER")]);
    }
}

/// The constants of a module of the crate: name, number, and the first words of its doc.
fn constants(module: &str) -> Vec<(String, String, String)> {
    let text = fs::read_to_string(root().join("rust/src").join(module)).unwrap();
    let (mut words, mut found) = ("", Vec::new());
    for line in text.lines() {
        if let Some(constant) = line.strip_prefix("pub const ") {
            let (name, number) = constant.split_once(": u8 = ").unwrap();
            found.push((name.into(), number.trim_end_matches(';').into(), words.into()));
        }
        words = line.strip_prefix("/// ").unwrap_or("");
    }
    found
}

/// Header and Rust have the same types with the same numbers, and say what each is in the same words.
#[test]
fn names_of_types() {
    let text = header::text();
    for (prefix, module, count) in
        [("TALC_HEADER_", "header.rs", 17), ("TALC_RECORD_", "record.rs", 30)]
    {
        let lines =
            text.lines().filter_map(|line| line.strip_prefix("#define ")?.strip_prefix(prefix));
        let constants = constants(module);
        assert_eq!((lines.clone().count(), constants.len()), (count, count));
        for (line, (name, number, words)) in lines.zip(constants) {
            let (defined, comment) = line.trim_end_matches(" */").split_once("/* ").unwrap();
            assert_eq!(defined.split_whitespace().collect::<Vec<_>>(), [&name, &number]);
            assert!(words.starts_with(comment), "{name}: {words}");
        }
    }
    assert_eq!(header::macros()["TALC_END"], u64::from(talcfeather::END));
    assert_eq!(header::macros()["TALC_VERSION"], u64::from(talcfeather::VERSION));
    assert_eq!(header::macros()["TALC_STACK"], talcfeather::STACK as u64);
}

#[test]
fn the_example() {
    for language in languages() {
        let program = compiled(language, "examples/list.c");
        let (status, out) = run(&program, &["examples/floor.psafe3", "a whole floor of lathes"]);
        assert_eq!(status, 0);
        let logins = ["Lathe 3\tworker", "Mill 1, spindle\tworker", "Label printer\tprint"];
        assert_eq!(out, logins.join("\t\n") + "\t\nSägewerk\tmüller\t\n");
        assert_eq!(run(&program, &["examples/floor.psafe3", "a whole"]).0, 8);
        assert_eq!(run(&program, &["examples/list.c", ""]).0, 1);
        assert_eq!(run(&program, &["examples/floor.passphrase", ""]).0, 1);
        for unreadable in ["no such file", "examples"] {
            assert_eq!(run(&program, &[unreadable, ""]), (66, String::new()));
        }
    }
}

/// A name for a file of this test's own, under which there is none.
fn fresh(name: &str) -> PathBuf {
    let path = Path::new(env!("CARGO_TARGET_TMPDIR")).join(name);
    let _ = fs::remove_file(&path);
    path
}

/// The fields of a safe by the peer: type and data, and all bytes of each, with its fill.
fn fields(file: &Path, passphrase: &str) -> Vec<(u8, Vec<u8>, Vec<u8>)> {
    let file = fs::read(file).unwrap();
    let (opened, _) = peer::safe::read(&file, passphrase.as_bytes(), 1 << 20, file.len());
    let body = opened.unwrap().body;
    let whole = |field: &Field| body[field.place..field.place + size(field.length)].to_vec();
    let fields = all(&body).unwrap();
    fields.iter().map(|field| (field.kind, field.data(&body).to_vec(), whole(field))).collect()
}

#[test]
fn makes_a_new_safe() {
    for language in languages() {
        let (program, path) = (compiled(language, "examples/new.c"), fresh("new.psafe3"));
        let name = path.to_str().unwrap();
        let said = run(&program, &[name, "new passphrase", "Saw", "müller", "its password"]);
        assert_eq!(said, (0, format!("{name}: 344 bytes\n")));
        let (mut made, uuid) = (fields(&path, "new passphrase"), fields(&path, "new passphrase"));
        assert_eq!(made.remove(2).1.len(), 16);
        let made = made.iter().map(|(kind, data, _)| (*kind, &data[..]));
        let texts: [(u8, &[u8]); 3] =
            [(0x03, b"Saw"), (0x04, "müller".as_bytes()), (0x06, b"its password")];
        let around = [(0x00, &[0x0e, 0x03][..]), (END, &[]), (END, &[])];
        assert!(made.eq([&around[..2], &texts, &around[2..]].concat()));
        let first = fs::read(&path).unwrap();
        run(&program, &[name, "new passphrase", "Saw", "müller", "its password"]);
        let again = fs::read(&path).unwrap();
        // UUID, salt, keys, initial vector: none of them twice.
        assert_ne!(fields(&path, "new passphrase")[2], uuid[2]);
        for part in [4..36, 72..104, 104..136, 136..152] {
            assert_ne!(first[part.clone()], again[part]);
        }
        assert_eq!(run(&program, &[name, "new passphrase", "", "u", "p"]), (9, String::new()));
        assert_eq!(run(&program, &[name, "new passphrase", "t", "u", &"p".repeat(5000)]).0, 3);
        assert_eq!(fs::read(&path).unwrap(), again);
        assert_eq!(run(&program, &["no/such/folder", "p", "t", "u", "p"]).0, 73);
    }
}

#[test]
fn changes_one_password() {
    let (floor, passphrase) = ("examples/floor.psafe3", "a whole floor of lathes");
    let before = fields(&root().join(floor), passphrase);
    let (password, titles) = ("a longer one, in its place", before.iter().filter(|f| f.0 == 0x03));
    let titles: Vec<&str> =
        titles.map(|(_, title, _)| std::str::from_utf8(title).unwrap()).collect();
    for language in languages() {
        let (program, path) = (compiled(language, "examples/change.c"), fresh("changed.psafe3"));
        let out = path.to_str().unwrap();
        for (at, title) in titles.iter().enumerate() {
            let said = run(&program, &[floor, passphrase, title, password, out]);
            assert_eq!(said, (0, format!("{title}: changed\n")));
            let mut after = fields(&path, passphrase);
            let passwords = before.iter().enumerate().filter(|(_, field)| field.0 == 0x06);
            let (there, _) = passwords.skip(at).next().unwrap();
            assert_eq!((after[there].0, &after[there].1[..]), (0x06, password.as_bytes()));
            after[there] = before[there].clone();
            assert_eq!(after, before);
        }
        let file = fs::read(&path).unwrap();
        assert_eq!(run(&program, &[floor, passphrase, "Lathe 4", "x", out]), (67, String::new()));
        assert_eq!(run(&program, &[floor, passphrase, "Lathe 3", "", out]), (9, String::new()));
        assert_eq!(run(&program, &[floor, "another", "Lathe 3", "x", out]), (8, String::new()));
        assert_eq!(fs::read(&path).unwrap(), file);
    }
}

#[test]
fn the_example_of_a_table() {
    for language in languages() {
        let program = compiled(language, "examples/rows.c");
        let (status, out) = run(&program, &["examples/floor.table"]);
        assert_eq!(status, 0);
        let rows = ["Lathe 3\tworker\t424", "Mill 1, spindle\tworker\t240"];
        let rest = ["Label printer\tprint\tno expiry", "Sägewerk\tmüller\tno expiry\n"];
        assert_eq!(out, [rows, rest].concat().join("\n"));
        assert_eq!(run(&program, &["examples/floor.psafe3"]), (18, String::new()));
        for unreadable in ["no such file", "examples"] {
            assert_eq!(run(&program, &[unreadable]), (66, String::new()));
        }
    }
}
