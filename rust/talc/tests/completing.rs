//! `talc completion`: scripts that a shell takes, with every command and option of the help.

#[path = "../../tests/common/mod.rs"]
mod common;
mod process;

use process::*;
use std::process::Command;

fn script(shell: &str) -> String {
    let ended = talc(&["completion", shell], b"");
    assert_eq!((ended.status, ended.err.as_str()), (0, ""));
    ended.out
}

/// The words of the help's entries that start so.
fn entries(start: &str) -> Vec<String> {
    let help = talc(&["--help"], b"").out;
    let entry = |line: &str| {
        let entry = line.strip_prefix("  ")?.strip_prefix(start)?;
        Some(entry.split(' ').next()?.to_string())
    };
    help.lines().filter_map(entry).filter(|word| !word.is_empty()).collect()
}

#[test]
fn all_commands_and_options() {
    let (commands, options) = (entries("talc "), entries("--"));
    assert!(commands.len() > 10 && options.len() > 10, "{commands:?} {options:?}");
    for shell in ["bash", "zsh", "fish"] {
        let script = script(shell);
        let words: Vec<&str> = script.split(|c: char| !c.is_alphanumeric() && c != '-').collect();
        for command in &commands {
            assert!(words.contains(&command.as_str()), "{shell}: {command}");
        }
        for option in &options {
            let word = if shell == "fish" { option.clone() } else { format!("--{option}") };
            assert!(words.contains(&word.as_str()), "{shell}: {option}");
        }
    }
    assert_eq!(talc(&["completion", "csh"], b"").status, 64);
}

/// Where a shell is there, it takes its script; bash always. Under an emulator one that is not there
/// starts, and ends with 127.
#[test]
fn taken_by_the_shell() {
    let folder = Folder::new("completion");
    for shell in ["bash", "zsh", "fish"] {
        let file = folder.put(shell, script(shell).as_bytes());
        match Command::new(shell).args(["-n", path(&file)]).output() {
            Ok(output) if output.status.code() != Some(127) => {
                let said = String::from_utf8_lossy(&output.stderr).into_owned();
                assert!(output.status.success() && said.is_empty(), "{shell}: {said}");
            }
            _ => assert!(shell != "bash", "there is no bash"),
        }
    }
}

/// What bash offers for the last of these words.
fn offered(folder: &Folder, words: &[&str]) -> Vec<String> {
    let file = folder.put(".script", script("bash").as_bytes());
    let typed: Vec<String> = words.iter().map(|word| format!("'{word}'")).collect();
    let run = format!(
        "source {}; COMP_WORDS=({}); COMP_CWORD={}; _talc; printf '%s\\n' \"${{COMPREPLY[@]}}\"",
        path(&file),
        typed.join(" "),
        words.len() - 1
    );
    let output = Command::new("bash").args(["-c", &run]).current_dir(&folder.0).output().unwrap();
    let said = String::from_utf8(output.stderr).unwrap();
    assert!(output.status.success() && said.is_empty(), "{said}");
    let text = String::from_utf8(output.stdout).unwrap();
    text.lines().filter(|line| !line.is_empty()).map(String::from).collect()
}

#[test]
fn offered_by_bash() {
    let folder = Folder::new("offered");
    folder.put("floor 2.psafe3", b"");
    let cases: [(&[&str], &[&str]); 9] = [
        (&["talc", "ch"], &["check"]),
        (&["talc", "fi"], &["fields", "find"]),
        (&["talc", "list", "fl"], &["floor 2.psafe3"]),
        (&["talc", "list", "--st"], &["--state"]),
        (&["talc", "check", "--st"], &[]),
        (&["talc", "--passphrase-file", "fl"], &["floor 2.psafe3"]),
        (&["talc", "--passphrase-file", "p", "sh"], &["show"]),
        (&["talc", "completion", ""], &["bash", "zsh", "fish"]),
        (&["talc", "show", "f", "0", "--re"], &["--reveal"]),
    ];
    for (words, offers) in cases {
        assert_eq!(offered(&folder, words), offers, "{words:?}");
    }
}
