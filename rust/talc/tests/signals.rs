//! Signals at the prompt: what ends or suspends `talc` there leaves the terminal as it was. Its keys
//! send none.

#[path = "../../tests/common/mod.rs"]
mod common;
mod process;

use process::terminal::Terminal;
use process::*;
use std::fs;

extern "C" {
    fn kill(process: i32, signal: i32) -> i32;
}

const INTERRUPT: i32 = 2;
const SUSPEND: i32 = 20;

fn asked(file: &std::path::Path) -> Terminal {
    let mut terminal = Terminal::talc(&["list", path(file)]);
    terminal.shows("Passphrase: ");
    assert!(!terminal.is_as_before());
    terminal
}

#[test]
fn ended_by_others() {
    let folder = Folder::new("ended");
    let file = folder.put("a.psafe3", &safe());
    for number in [1, INTERRUPT, 3, 15] {
        let terminal = asked(&file);
        terminal.signals(number);
        let (status, signal, shown) = terminal.ends();
        assert_eq!((status, signal), (None, Some(number)), "{shown}");
    }
}

/// Suspended by another, the terminal is as it was; after it, nothing typed is shown, and the
/// passphrase is taken. Twice.
#[test]
fn suspended() {
    let folder = Folder::new("suspended");
    let file = folder.put("a.psafe3", &safe());
    let number = folder.0.join("number");
    let run = format!("sh -c 'echo $$ >{}; exec $TALC list {}'", path(&number), path(&file));
    let stopped = "echo \"status $?\"; printf 'Go on? '; read line; fg";
    let script = format!("{run}; {stopped}; {stopped}; echo \"end $?\"");
    let mut terminal = Terminal::shell(&["bash", "-m"], &script);
    terminal.shows("Passphrase: ");
    let talc = fs::read_to_string(&number).unwrap().trim().parse().unwrap();
    for _ in 0..2 {
        terminal.types(b"flo");
        assert_eq!(unsafe { kill(talc, SUSPEND) }, 0);
        terminal.shows("Go on? ");
        assert!(terminal.is_as_before(), "while it is suspended");
        terminal.types(b"\n");
        terminal.shows("Passphrase: ");
        assert!(!terminal.is_as_before(), "quiet again");
    }
    terminal.types(b"floor 2\n");
    let (status, _, shown) = terminal.ends();
    assert_eq!(status, Some(0), "{shown}");
    assert_eq!(shown.matches("status 148").count(), 2, "{shown}");
    assert!(shown.contains("Printer") && shown.contains("end 0"), "{shown}");
    assert!(!shown.contains("floor"), "{shown}");
}

/// While the passphrase is stretched, the share done is told; an interrupt ends it.
#[test]
fn the_share_done() {
    let folder = Folder::new("share");
    let mut file = safe();
    file[36..40].copy_from_slice(&16_000_000u32.to_le_bytes());
    let file = folder.put("a.psafe3", &file);
    let mut terminal = Terminal::talc(&["list", path(&file)]);
    terminal.shows("Passphrase: ");
    terminal.types(b"floor 2\n");
    terminal.shows(" %");
    terminal.types(b"\x03");
    let (_, signal, shown) = terminal.ends();
    assert_eq!(signal, Some(INTERRUPT), "{shown}");
    let (_, said) =
        shown.split_once("stretching the passphrase, 16000000 rounds: 1 s, about ").unwrap();
    let share: u32 = said.split(' ').next().unwrap().parse().unwrap();
    assert!(share <= 99, "{shown}");
}

/// What is to be ignored is: the prompt stays.
#[test]
fn ignored() {
    let folder = Folder::new("ignored");
    let file = folder.put("a.psafe3", &safe());
    let script = format!("trap '' TERM; exec $TALC list {}", path(&file));
    let mut terminal = Terminal::shell(&["bash"], &script);
    terminal.shows("Passphrase: ");
    terminal.signals(15);
    terminal.types(b"floor 2\n");
    let (status, _, shown) = terminal.ends();
    assert_eq!(status, Some(0), "{shown}");
}
