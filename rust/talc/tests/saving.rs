//! Where and how a safe is saved: mode, owner, links, backups, and what is never replaced.

#[path = "../../tests/common/mod.rs"]
mod common;
mod process;
mod shim;
mod stored;

use common::elsewhere::built;
use peer::chain::cbc_decrypt;
use peer::safe::MARKER;
use peer::twofish::Twofish;
use process::*;
use std::ffi::CString;
use std::fs::{self, Permissions};
use std::os::unix::ffi::OsStrExt;
use std::os::unix::fs::{chown, symlink, FileTypeExt, MetadataExt, PermissionsExt};
use std::os::unix::process::CommandExt;
use std::path::{Path, PathBuf};
use std::process::Output;
use stored::*;

extern "C" {
    fn getuid() -> u32;
    fn mkfifo(path: *const std::ffi::c_char, mode: u32) -> i32;
}

/// Of nobody in particular.
const NOBODY: u32 = 65_534;

fn is_root() -> bool {
    unsafe { getuid() == 0 }
}

fn mode(path: &Path) -> u32 {
    fs::metadata(path).unwrap().mode() & 0o7777
}

fn fifo(folder: &Folder, name: &str) -> PathBuf {
    let path = folder.0.join(name);
    let c_path = CString::new(path.as_os_str().as_bytes()).unwrap();
    assert_eq!(unsafe { mkfifo(c_path.as_ptr(), 0o600) }, 0);
    path
}

/// Without root's powers, whoever runs the tests.
fn as_nobody(arguments: &[&str]) -> Output {
    let mut command = built(env!("CARGO_BIN_EXE_talc"));
    command.args(arguments);
    if is_root() {
        command.gid(NOBODY).uid(NOBODY);
    }
    command.output().unwrap()
}

/// Of a safe that is changed in place; what is written as OUT has mode 0600.
#[test]
fn mode_and_owner_stay() {
    for wanted in [0o600, 0o640, 0o664, 0o604] {
        let office = Office::new("mode");
        fs::set_permissions(&office.file, Permissions::from_mode(wanted)).unwrap();
        if is_root() {
            chown(&office.file, Some(1234), Some(2345)).unwrap();
        }
        let before = fs::metadata(&office.file).unwrap();
        office.done("set", &["0", "title=A"]);
        let out = office.folder.put("out.psafe3", b"x");
        fs::set_permissions(&out, Permissions::from_mode(wanted)).unwrap();
        chown(&out, Some(before.uid()), Some(before.gid())).unwrap();
        let words = ["resave", path(&office.file), path(&out), "--passphrase-stdin"];
        assert_eq!(talc(&words, PASSPHRASE).status, 0);
        for file in [&office.file, &office.backup()] {
            let after = fs::metadata(file).unwrap();
            let of = |held: &fs::Metadata| (held.uid(), held.gid(), held.mode());
            assert_eq!(of(&after), of(&before), "{}", file.display());
        }
        let (after, owner) = (fs::metadata(&out).unwrap(), (before.uid(), before.gid()));
        assert_eq!(((after.uid(), after.gid()), after.mode() & 0o7777), (owner, 0o600));
        assert_ne!(fs::metadata(&office.file).unwrap().ino(), before.ino(), "a new file");
        assert_eq!(fs::metadata(office.backup()).unwrap().ino(), before.ino(), "the old file");
    }
}

/// A table or a state has mode 0600 too, whatever the file had that it replaces.
#[test]
fn tables_and_states_are_private() {
    let office = Office::new("private");
    let (table, state) = (office.folder.put("table", b""), office.folder.0.join("state"));
    let trace = office.folder.put("trace", &[&[9; 16][..], &[1, 0, 0, 0, 2], &[0; 11]].concat());
    fs::write(&state, vec![0; 131_072]).unwrap();
    for file in [&table, &state] {
        fs::set_permissions(file, Permissions::from_mode(0o664)).unwrap();
    }
    office.done("table", &[path(&table)]);
    let ended = talc(&["replay", path(&state), path(&trace)], b"");
    assert_eq!(ended.status, 0, "{}", ended.err);
    assert_eq!((mode(&table), mode(&state)), (0o600, 0o600));
}

/// Where the group can't be kept, the new one gets nothing by it.
#[test]
fn a_group_that_can_not_be_kept() {
    if !is_root() {
        eprintln!("left out: only root can make a file of another group");
        return;
    }
    let office = Office::new("group");
    fs::set_permissions(&office.folder.0, Permissions::from_mode(0o777)).unwrap();
    fs::set_permissions(&office.file, Permissions::from_mode(0o666)).unwrap();
    chown(&office.file, Some(1234), Some(2345)).unwrap();
    let given = ["--passphrase-file", path(&office.passphrase)];
    let output = as_nobody(&[&["remove", path(&office.file), "1"], &given[..]].concat());
    assert!(output.status.success(), "{}", String::from_utf8_lossy(&output.stderr));
    let after = fs::metadata(&office.file).unwrap();
    assert_eq!((after.uid(), after.gid(), after.mode() & 0o777), (NOBODY, NOBODY, 0o606));
}

#[test]
fn a_link_is_followed_and_stays() {
    let office = Office::new("link");
    let (far, near) = (office.folder.0.join("far"), office.folder.0.join("link.psafe3"));
    fs::create_dir(&far).unwrap();
    fs::rename(&office.file, far.join("b.psafe3")).unwrap();
    symlink("far/b.psafe3", office.folder.0.join("second")).unwrap();
    symlink("second", &near).unwrap();
    let given = ["--passphrase-file", path(&office.passphrase)];
    let out = talc(&[&["remove", path(&near), "1"], &given[..]].concat(), b"");
    assert_eq!(out.status, 0, "{}", out.err);
    assert!(out.out.contains("far/b.psafe3.bak"), "{}", out.out);
    assert!(fs::symlink_metadata(&near).unwrap().is_symlink());
    assert_eq!(sections(&far.join("b.psafe3"), PASSPHRASE).len(), 2);
    assert!(fs::read(far.join("b.psafe3.bak")).unwrap() == safe());
    let held = office.folder.put("c.psafe3", &safe());
    let ended = talc(&[&["resave", path(&held), path(&near)], &given[..]].concat(), b"");
    assert_eq!(ended.status, 0, "{}", ended.err);
    assert!(fs::symlink_metadata(&near).unwrap().is_symlink());
    assert!(fs::read(far.join("b.psafe3")).unwrap() == safe());
    let mut names: Vec<_> = fs::read_dir(&far).unwrap().map(|e| e.unwrap().file_name()).collect();
    names.sort();
    assert_eq!(names, ["b.psafe3", "b.psafe3.bak"]);
}

/// A device, FIFO, folder or link that leads nowhere: refused before anything is asked, and it stays.
#[test]
fn no_regular_file() {
    let office = Office::new("irregular");
    let [nowhere, round] = ["nowhere", "round"].map(|name| office.folder.0.join(name));
    symlink("no such file", &nowhere).unwrap();
    symlink("round", &round).unwrap();
    let to_fifo = office.folder.0.join("to-fifo");
    let fifo = fifo(&office.folder, "fifo");
    symlink("fifo", &to_fifo).unwrap();
    let (null, file) = (PathBuf::from("/dev/null"), path(&office.file));
    for out in [&null, &fifo, &to_fifo, &office.folder.0, &nowhere, &round] {
        let out = path(out);
        let commands: [&[&str]; 6] = [
            &["resave", file, out],
            &["table", file, out],
            &["set", out, "0", "title=A"],
            &["remove", out, "0"],
            &["passphrase", out],
            &["add", out, "title=A"],
        ];
        for command in commands {
            let ended = talc(command, b"");
            assert_eq!((ended.status, ended.out.as_str()), (73, ""), "{command:?}: {}", ended.err);
            assert!(ended.err.contains(out) && !ended.err.contains("--help"), "{}", ended.err);
        }
        let given = ["--new-passphrase-file", path(&office.passphrase)];
        let ended = talc(&[&["new", out], &given[..]].concat(), b"");
        assert_eq!((ended.status, ended.out.as_str()), (73, ""), "{}", ended.err);
        assert!(ended.err.contains("is there already"), "{}", ended.err);
    }
    assert!(fs::metadata(&null).unwrap().file_type().is_char_device());
    assert!(fs::symlink_metadata(&fifo).unwrap().file_type().is_fifo());
    assert!(fs::read_link(&nowhere).is_ok() && fs::read_link(&round).is_ok());
    assert!(fs::read(&office.file).unwrap() == safe());
}

#[test]
fn backups() {
    let office = Office::new("backups");
    office.done("set", &["0", "title=A", "--no-backup"]);
    assert!(!office.backup().exists());
    let first = fs::read(&office.file).unwrap();
    office.done("set", &["0", "title=B"]);
    assert!(fs::read(office.backup()).unwrap() == first);
    let second = fs::read(&office.file).unwrap();
    office.done("set", &["0", "title=C"]);
    assert!(fs::read(office.backup()).unwrap() == second);
    assert_eq!(office.folder.names(), ["a.psafe3", "a.psafe3.bak", "passphrase", "password"]);
}

/// What stands in the backup's place and is no regular file stays, and the safe too.
#[test]
fn no_place_for_a_backup() {
    let office = Office::new("no-backup");
    let backup = office.backup();
    let places: [fn(&Path); 3] = [
        |place| fs::create_dir(place).unwrap(),
        |place| symlink("elsewhere", place).unwrap(),
        |place| {
            let c_path = CString::new(place.as_os_str().as_bytes()).unwrap();
            assert_eq!(unsafe { mkfifo(c_path.as_ptr(), 0o600) }, 0);
        },
    ];
    for place in places {
        place(&backup);
        let before = (fs::read(&office.file).unwrap(), office.folder.names());
        let ended = office.talc("set", &["Printer", "user=x"]);
        assert_eq!((ended.status, ended.out.as_str()), (73, ""), "{}", ended.err);
        assert!(ended.err.contains("--no-backup"), "{}", ended.err);
        assert!((fs::read(&office.file).unwrap(), office.folder.names()) == before);
        assert!(!fs::symlink_metadata(&backup).unwrap().is_file());
        let _ = fs::remove_dir(&backup).or_else(|_| fs::remove_file(&backup));
    }
    office.done("set", &["Printer", "user=x"]);
}

fn disturbed(office: &Office, words: &[&str], only: &str, error: &str) -> shim::Shimmed {
    let settings = [
        ("SHIM_FOLDER", path(&office.folder.0)),
        ("SHIM_ONLY", only),
        ("SHIM_AT", "0"),
        ("SHIM_HOW", error),
    ];
    let given = ["--passphrase-file", path(&office.passphrase)];
    shim::run(&[words, if words[0] == "new" { &[] } else { &given }].concat(), &settings)
}

/// A file system without links: the backup is a copy. One without a renaming that replaces nothing:
/// a new safe gets its name by a link.
#[test]
fn lesser_file_systems() {
    let office = Office::new("lesser");
    let before = fs::metadata(&office.file).unwrap();
    let ended = disturbed(&office, &["remove", path(&office.file), "1"], "linkat", "1");
    assert_eq!(ended.status, Some(0), "{}", ended.err);
    assert!(fs::read(office.backup()).unwrap() == safe());
    assert_ne!(fs::metadata(office.backup()).unwrap().ino(), before.ino());
    assert_eq!(mode(&office.backup()), before.mode() & 0o7777);
    assert_eq!(office.sections().len(), 2);
    let (new, option) = (office.folder.0.join("new.psafe3"), "--new-passphrase-file");
    let words = ["new", path(&new), "--iter", "2048", option, path(&office.passphrase)];
    for _ in 0..2 {
        let ended = disturbed(&office, &words, "renameat2", "22");
        assert_eq!(ended.status, Some(if ended.err.is_empty() { 0 } else { 73 }));
        assert_eq!(sections(&new, PASSPHRASE).len(), 1);
    }
    let names = ["a.psafe3", "a.psafe3.bak", "new.psafe3", "passphrase", "password"];
    assert_eq!(office.folder.names(), names);
}

/// A folder that can't be synced is told of, and the safe is saved.
#[test]
fn a_folder_that_is_not_synced() {
    let office = Office::new("unsynced");
    let settings = [
        ("SHIM_FOLDER", path(&office.folder.0)),
        ("SHIM_ONLY", "fsync"),
        ("SHIM_AT", "2"),
        ("SHIM_HOW", "5"),
    ];
    let given = ["--passphrase-file", path(&office.passphrase)];
    let ended = shim::run(&[&["remove", path(&office.file), "1"], &given[..]].concat(), &settings);
    assert_eq!(ended.status, Some(0));
    assert!(ended.err.contains("the folder can't be synced"), "{}", ended.err);
    assert_eq!((office.sections().len(), ended.err.lines().count()), (2, 1));
}

/// Where no longer file can be written, and where nothing can be written beside.
#[test]
fn no_room_beside() {
    let office = Office::new("no-room");
    let given = ["--passphrase-file", path(&office.passphrase)];
    let words = [&["set", path(&office.file), "0", "user=x"], &given[..]].concat();
    let output = talc_writing_at_most(300, &words);
    assert_eq!((output.status.code(), output.stdout), (Some(73), Vec::new()));
    assert!(String::from_utf8(output.stderr).unwrap().contains("not written: File too large"));
    fs::set_permissions(&office.file, Permissions::from_mode(0o666)).unwrap();
    fs::set_permissions(&office.folder.0, Permissions::from_mode(0o555)).unwrap();
    let output = as_nobody(&words);
    fs::set_permissions(&office.folder.0, Permissions::from_mode(0o755)).unwrap();
    let err = String::from_utf8(output.stderr).unwrap();
    assert_eq!((output.status.code(), output.stdout), (Some(73), Vec::new()), "{err}");
    assert!(err.contains("not written: Permission denied") && err.lines().count() == 1, "{err}");
    assert!(fs::read(&office.file).unwrap() == safe());
    assert_eq!(office.folder.names(), ["a.psafe3", "passphrase", "password"]);
}

/// A file that its user may not write is not replaced either.
#[test]
fn protected_from_writing() {
    let office = Office::new("read-only");
    fs::set_permissions(&office.folder.0, Permissions::from_mode(0o777)).unwrap();
    fs::set_permissions(&office.file, Permissions::from_mode(0o444)).unwrap();
    let given = ["--passphrase-file", path(&office.passphrase)];
    let output = as_nobody(&[&["set", path(&office.file), "0", "user=x"], &given[..]].concat());
    assert_eq!((output.status.code(), output.stdout), (Some(73), Vec::new()));
    assert!(fs::read(&office.file).unwrap() == safe());
}

/// An initial vector under which an encrypted block equals the marker: another is taken.
#[test]
fn a_block_like_the_marker() {
    let office = Office::new("collision");
    let key = [5; 32];
    // The first block is the version's, with its fill; under the initial vector of zeros.
    let mut block = *MARKER;
    cbc_decrypt(&Twofish::new(&key), &[0; 16], &mut block);
    let first = opened(&office.file, PASSPHRASE).body[..16].to_vec();
    let vector: Vec<u8> = block.iter().zip(&first).map(|(a, b)| a ^ b).collect();
    let bytes = office.folder.put("bytes", &[&key[..], &vector].concat());
    let given = ["--passphrase-file", path(&office.passphrase)];
    let words = [&["remove", path(&office.file), "1"], &given[..]].concat();
    let ended = shim::run(&words, &[("SHIM_BYTES", path(&bytes))]);
    assert_eq!(ended.status, Some(0), "{}", ended.err);
    let (file, opened) = (fs::read(&office.file).unwrap(), opened(&office.file, PASSPHRASE));
    assert_eq!(opened.k, key, "the key is the one that was handed out");
    assert_ne!(file[136..152], vector, "and the initial vector another");
    assert_eq!(opened.body[..16], first);
}
