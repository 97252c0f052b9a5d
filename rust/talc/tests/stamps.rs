//! The stamps that a save leaves: when, by what, by whom, and what they replace.

#[path = "../../tests/common/mod.rs"]
mod common;
mod process;
mod stored;

use common::bodies::{part, Part};
use process::*;
use std::fs;
use std::process::Command;
use std::time::{SystemTime, UNIX_EPOCH};
use stored::*;

fn user() -> String {
    let output = Command::new("id").arg("-un").output().unwrap();
    String::from_utf8(output.stdout).unwrap().trim_end().to_string()
}

fn host() -> String {
    fs::read_to_string("/proc/sys/kernel/hostname").unwrap().trim_end().to_string()
}

/// A header that has told user and host tells of this save, in the old form too; the order stays.
#[test]
fn all_that_are_there() {
    let header = [
        part(0x08, b"old host"),
        part(0x13, b"4A5B6C7D"),
        part(0x05, b"0003tomold host"),
        part(0x0c, b"unknown"),
        part(0x06, b"Password Safe V3.02"),
        part(0x07, b"tom"),
        part(0x04, b"4A5B6C7D"),
    ];
    let office = Office::of("stamps", &one_login(&header, &[]));
    let mut expected = office.sections();
    office.done("set", &["0", "user=x"]);
    stamp(&mut expected[0]);
    let (user, host) = (user(), host());
    put(&mut expected[0], fresh(0x05, format!("{:04x}{user}{host}", user.len())));
    put(&mut expected[0], fresh(0x07, &user));
    put(&mut expected[0], fresh(0x08, &host));
    put(&mut expected[1], fresh(0x04, "x"));
    put(&mut expected[1], time(0x0c, NOW));
    assert_same(&office.sections(), &expected);
}

/// One that has not is told when and by what, and no more.
#[test]
fn none_there() {
    let office = Office::of("stamps-none", &one_login(&[part(0x07, b"tom")], &[]));
    let mut expected = office.sections();
    office.done("remove", &["0"]);
    put(&mut expected[0], fresh(0x07, user()));
    stamp(&mut expected[0]);
    expected.pop();
    assert_same(&office.sections(), &expected);
}

/// What the safe's login has after a change of these fields.
fn changed(name: &str, login: &[Part], words: &[&str]) -> (Vec<Stored>, Vec<Stored>) {
    let office = Office::of(name, &one_login(&[], login));
    let before = office.sections().remove(1);
    let words: Vec<&str> = words
        .iter()
        .copied()
        .map(|w| match w {
            "PASSWORD" => office.password.as_str(),
            word => word,
        })
        .collect();
    office.done("set", &words);
    (before, office.sections().remove(1))
}

/// The time of the password is set when the password changes, that of the record with any field, and
/// those of creation and access never.
#[test]
fn of_a_login() {
    let times = [0x07, 0x08, 0x09, 0x0c].map(|kind| part(kind, &[1, 2, 3, 4]));
    let (mut expected, found) =
        changed("stamps-of_a_login", &times, &["0", "password", "PASSWORD"]);
    put(&mut expected, fresh(0x06, "a new password"));
    put(&mut expected, time(0x08, NOW));
    put(&mut expected, time(0x0c, NOW));
    assert_same(&[found], &[expected]);
    let (mut expected, found) = changed("stamps-of_a_login", &times, &["0", "title=A"]);
    put(&mut expected, fresh(0x03, "A"));
    put(&mut expected, time(0x0c, NOW));
    assert_same(&[found], &[expected]);
}

/// A login whose password expires every so many days expires that many days after the change, unless
/// another day is given, or the password stays.
#[test]
fn intervals() {
    let days = |days: u32| [part(0x11, &days.to_le_bytes()), part(0x0a, &[1, 2, 3, 4])];
    let expiry = |section: &[Stored]| {
        let field = section.iter().find(|field| field.kind == 0x0a).unwrap();
        u32::from_le_bytes(field.data.clone().try_into().unwrap())
    };
    let kept = u32::from_le_bytes([1, 2, 3, 4]);
    let password = &["0", "password", "PASSWORD"][..];
    assert_eq!(expiry(&changed("stamps-intervals", &days(30), password).1), NOW + 30 * 86_400);
    assert_eq!(expiry(&changed("stamps-intervals", &days(3650), password).1), NOW + 3650 * 86_400);
    assert_eq!(expiry(&changed("stamps-intervals", &days(0), password).1), kept);
    assert_eq!(expiry(&changed("stamps-intervals", &days(3651), password).1), kept);
    assert_eq!(expiry(&changed("stamps-intervals", &days(30), &["0", "title=A"]).1), kept);
    let given = [password, &["expires=2027-06-30"]].concat();
    assert_eq!(expiry(&changed("stamps-intervals", &days(30), &given).1), 1_814_313_600);
}

/// The history of passwords stays as it is.
#[test]
fn history_stays() {
    let history = [part(0x0f, b"1ff0100000000013an old password")];
    let (before, after) = changed("stamps-history_stays", &history, &["0", "password", "PASSWORD"]);
    assert_eq!(before[3], after[3]);
    assert_eq!(before[3].kind, 0x0f);
}

/// Without --now it is the clock's time.
#[test]
fn the_clock() {
    let clock = || SystemTime::now().duration_since(UNIX_EPOCH).unwrap().as_secs() as u32;
    let office = Office::new("stamps-clock");
    let before = clock();
    let words = ["remove", path(&office.file), "1", "--passphrase-stdin"];
    assert_eq!(talc(&words, PASSPHRASE).status, 0);
    let saved = office.sections()[0].iter().find(|field| field.kind == 0x04).cloned().unwrap();
    let saved = u32::from_le_bytes(saved.data.try_into().unwrap());
    assert!((before..=clock()).contains(&saved));
}
