//! `talc explain`, and that the help says what each number means.

#[path = "../../tests/common/mod.rs"]
mod common;
mod process;

use process::*;

/// The numbers that the help lists, with what it says of each.
fn listed() -> Vec<(String, String)> {
    let help = talc(&["--help"], b"").out;
    let statuses = help.split_once("\nExit status:\n").unwrap().1;
    let entry = |line: &str| {
        let (number, text) = line.strip_prefix("  ")?.split_once("  ")?;
        (!number.is_empty()).then(|| (number.to_string(), text.trim().to_string()))
    };
    statuses.lines().filter_map(entry).collect()
}

#[test]
fn every_number() {
    let listed = listed();
    let numbers: Vec<u32> = listed.iter().map(|(number, _)| number.parse().unwrap()).collect();
    let own = [16, 18, 19, 64, 66, 67, 68, 70, 73, 74, 75, 77];
    assert_eq!(numbers, (0..=14).chain(own).collect::<Vec<_>>());
    for (number, text) in listed {
        assert!(text.len() > 10, "{number}: {text}");
        let ended = talc(&["explain", &number], b"");
        assert_eq!((ended.status, ended.err.as_str()), (0, ""), "{number}");
        let lines: Vec<&str> = ended.out.lines().collect();
        assert!(
            matches!(lines[..], [means, to_do]
            if means.starts_with("Means: ") && to_do.starts_with("To do: ")),
            "{}",
            ended.out
        );
    }
    let ended = talc(&["explain", "7"], b"");
    assert_eq!(ended.out, "Means: the file is not whole\nTo do: copy it again\n");
}

#[test]
fn no_number() {
    for word in ["15", "17", "20", "65", "255", "4294967296", "-1", "seven", "\u{1b}"] {
        let ended = talc(&["explain", "--", word], b"");
        assert_eq!((ended.status, ended.out.as_str()), (64, ""), "{word}");
        assert!(ended.err.contains("there is no number") && !ended.err.contains('\u{1b}'));
    }
}
