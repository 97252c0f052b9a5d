//! What ENTRY means: a number, a UUID or its start, or words.

#[path = "../../tests/common/mod.rs"]
mod common;
mod process;

use common::bodies::{part, Part};
use process::*;
use std::path::PathBuf;

fn login(title: &str, user: &str, group: &str) -> Vec<Part> {
    [(0x03, title), (0x04, user), (0x02, group)]
        .iter()
        .map(|(kind, text)| part(*kind, text.as_bytes()))
        .collect()
}

fn floor(folder: &Folder) -> PathBuf {
    let logins = [
        login("Lathe 3", "worker", "Floor 2.Lathes"),
        login("Lathe 30", "nina", "Floor 2.Lathes"),
        login("Sägewerk", "MÜLLER", "Floor 1"),
        login("deadbeef", "", ""),
        login("12345678", "", "\u{1b}[2J"),
    ];
    let logins: Vec<&[Part]> = logins.iter().map(|login| &login[..]).collect();
    folder.put("a.psafe3", &safe_of(&logins))
}

/// The numbers of the entries that `show` finds: the one that it shows, or those that it tells.
fn found(file: &std::path::Path, entry: &str) -> (i32, Vec<String>) {
    let ended = talc_with(&["show", path(file), entry]);
    assert_eq!(ended.status == 0, ended.err.is_empty(), "{}", ended.err);
    assert_eq!(ended.status == 0, !ended.out.is_empty(), "{}", ended.out);
    let said = ended.out + &ended.err;
    assert!(!said.contains("secret") && !said.contains('\u{1b}'), "{said}");
    let number = |text: &str| text.split([',', '\n']).next().unwrap().to_string();
    let told = said.split_once("give the number of one: ").map_or("", |(_, told)| told);
    let numbers = match said.strip_prefix("record ") {
        Some(shown) => vec![number(shown)],
        None => told.split("; ").filter(|told| !told.is_empty()).map(number).collect(),
    };
    (ended.status, numbers)
}

#[test]
fn by_words() {
    let folder = Folder::new("by-words");
    let file = floor(&folder);
    let cases: [(&str, &[&str]); 12] = [
        ("lathe", &["0", "1"]),
        ("LATHE worker", &["0"]),
        ("worker lathe", &["0"]),
        ("floor 2", &["0", "1"]),
        ("3 floor", &["0", "1"]),
        ("müller", &["2"]),
        ("SÄGE", &["2"]),
        ("lathe müller", &[]),
        ("secret", &[]),
        ("deadbeef", &["3"]),
        ("12345678", &["4"]),
        ("floor", &["0", "1", "2"]),
    ];
    for (words, numbers) in cases {
        let status = [67, 0, 68][numbers.len().min(2)];
        let numbers = numbers.iter().map(|number| number.to_string()).collect();
        assert_eq!(found(&file, words), (status, numbers), "{words}");
    }
}

/// The first digits, from eight on.
#[test]
fn by_a_uuid() {
    let folder = Folder::new("by-uuid");
    let file = floor(&folder);
    let whole = "020202020202020202020202020202ff";
    let capital = whole.to_uppercase();
    for digits in ["02020202", "0202-0202", &whole[..29], &whole[..31], whole, &capital] {
        assert_eq!(found(&file, digits), (0, vec!["2".to_string()]), "{digits}");
    }
    for none in ["02020203", "0202020202020202020202020202020", "020202020202020202020202020202fe"]
    {
        assert_eq!(found(&file, none), (67, vec![]), "{none}");
    }
}

/// What ENTRY means, by the title of what `show` shows.
#[test]
fn entries() {
    let folder = Folder::new("entries");
    let file = floor(&folder);
    let cases = [
        ("0", "Lathe 3"),
        ("00004", "12345678"),
        ("01010101", "Lathe 30"),
        ("010101010101010101010101010101ff", "Lathe 30"),
        ("lathe worker", "Lathe 3"),
        ("NINA", "Lathe 30"),
        // Both hold the words; one is titled so.
        ("lathe 3", "Lathe 3"),
        (" lathe   3 ", "Lathe 3"),
        ("deadbeef", "deadbeef"),
    ];
    for (entry, title) in cases {
        let ended = talc_with(&["show", path(&file), entry]);
        assert_eq!(ended.status, 0, "{entry}: {}", ended.err);
        let line = format!("\nTitle                        {title}\n");
        assert!(ended.out.contains(&line), "{entry}: {}", ended.out);
    }
    for (entry, words) in [
        ("5", "no record has the number 5"),
        ("nobody", "no login has these words"),
        ("0101010f", "no record's UUID starts with that"),
        ("010101010101010101010101010101fe", "no record has that UUID"),
    ] {
        let ended = talc_with(&["show", path(&file), entry]);
        assert_eq!((ended.status, ended.out.as_str()), (67, ""), "{entry}");
        assert!(ended.err.contains(words), "{}", ended.err);
    }
}

/// All are told with their numbers, in one line on standard error, and nothing is shown.
#[test]
fn several_entries() {
    let folder = Folder::new("several-entries");
    let file = floor(&folder);
    let ended = talc_with(&["show", path(&file), "lathe"]);
    assert_eq!((ended.status, ended.out.as_str()), (68, ""));
    let head = format!("talc: {}: 2 entries match: give the number of one: ", file.display());
    let first = r#"0, "Lathe 3", "worker", "Floor 2.Lathes""#;
    let second = r#"1, "Lathe 30", "nina", "Floor 2.Lathes""#;
    assert_eq!(ended.err, format!("{head}{first}; {second}\n"));
    // The same title twice: neither wins.
    let twice = [login("Mill", "a", ""), login("Mill", "b", "")];
    let file = folder.put("b.psafe3", &safe_of(&[&twice[0], &twice[1]]));
    assert_eq!(talc_with(&["show", path(&file), "mill"]).status, 68);
    assert_eq!(talc_with(&["show", path(&file), "mill b"]).status, 0);
}
