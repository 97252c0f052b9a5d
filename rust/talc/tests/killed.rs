//! Saves that are killed or fail at each of their calls: the old safe or the new one is there, whole,
//! and never neither.

#[path = "../../tests/common/mod.rs"]
mod common;
mod process;
mod shim;

use common::bodies::{join, part};
use peer::fields::{all, END};
use peer::random::Random;
use process::*;
use shim::*;
use std::fs;
use std::path::PathBuf;

const NEW: &[u8] = b"another floor";
const NO_SPACE: &str = "28";
const IO: &str = "5";

/// A command that saves, with FILE for the safe and SECRETS for the folder of secrets.
struct Save {
    name: &'static str,
    words: &'static str,
    passphrase: &'static [u8],
}

struct Scene {
    folder: Folder,
    secrets: Folder,
    arguments: Vec<String>,
    /// What the folder holds before the run.
    before: Vec<(&'static str, Vec<u8>)>,
    /// The values of the new file, as an undisturbed run leaves them.
    after: Vec<(u8, Vec<u8>)>,
    passphrase: &'static [u8],
}

/// An older safe, which stands as SAFE.bak.
fn older() -> Vec<u8> {
    safe_around(&join(&mut Random(7), &[part(0x00, &[0x0e, 0x03]), part(END, &[])]), 2048)
}

/// The fields of a whole safe; none if it is none. Random UUIDs are all alike.
fn values(file: &[u8], passphrase: &[u8]) -> Option<Vec<(u8, Vec<u8>)>> {
    let opened = peer::safe::read(file, passphrase, u32::MAX, usize::MAX).0.ok()?;
    let fields = all(&opened.body).expect("fields");
    let value = |field: &peer::fields::Field| match field.data(&opened.body) {
        data if field.kind == 0x01 && data != UUID && data != [9; 16] => vec![0],
        data => data.to_vec(),
    };
    Some(fields.iter().map(|field| (field.kind, value(field))).collect())
}

impl Scene {
    fn new(save: &Save, before: Vec<(&'static str, Vec<u8>)>) -> Scene {
        let name = save.name;
        let folder = Folder::new(&format!("killed-{name}"));
        let secrets = Folder::new(&format!("secrets-{name}"));
        secrets.put("passphrase", PASSPHRASE);
        secrets.put("new", NEW);
        secrets.put("password", b"a password");
        let file = folder.0.join("a.psafe3");
        let words = save.words.replace("FILE", path(&file)).replace("SECRETS", path(&secrets.0));
        let arguments = words.split(' ').map(str::to_string).collect();
        let passphrase = save.passphrase;
        let mut scene = Scene { folder, secrets, arguments, before, after: Vec::new(), passphrase };
        scene.reset();
        let ended = scene.run(&[]);
        assert_eq!(ended.status, Some(0), "{}", ended.err);
        scene.after = values(&fs::read(scene.file()).unwrap(), passphrase).expect("a safe");
        scene
    }

    fn file(&self) -> PathBuf {
        self.folder.0.join("a.psafe3")
    }

    fn held(&self, name: &str) -> Option<Vec<u8>> {
        fs::read(self.folder.0.join(name)).ok()
    }

    fn was(&self, name: &str) -> Option<Vec<u8>> {
        self.before.iter().find(|(file, _)| *file == name).map(|(_, bytes)| bytes.clone())
    }

    fn reset(&self) {
        for name in self.folder.names() {
            fs::remove_file(self.folder.0.join(name)).unwrap();
        }
        for (name, bytes) in &self.before {
            self.folder.put(name, bytes);
        }
    }

    fn words(&self) -> Vec<&str> {
        self.arguments.iter().map(String::as_str).collect()
    }

    fn run(&self, settings: &[(&str, &str)]) -> Shimmed {
        run(&self.words(), settings)
    }

    /// Runs it from the start, with the call of that number going wrong.
    fn disturbed(&self, number: usize, how: &str) -> Shimmed {
        self.reset();
        let number = number.to_string();
        let folder = ("SHIM_FOLDER", path(&self.folder.0));
        self.run(&[folder, ("SHIM_AT", &number), ("SHIM_HOW", how)])
    }

    fn is_new(&self) -> bool {
        let held = self.held("a.psafe3");
        held.is_some_and(|held| values(&held, self.passphrase).as_ref() == Some(&self.after))
    }

    /// The old safe or the new one; and as SAFE.bak the older or the old one, which it is wherever
    /// the safe is new.
    fn whole(&self, what: &str) {
        let old = self.held("a.psafe3") == self.was("a.psafe3");
        assert!(old || self.is_new(), "neither the old safe nor the new one: {what}");
        let Some(backup) = self.was("a.psafe3.bak") else { return };
        let kept = self.held("a.psafe3.bak").expect("a backup");
        let is_old = Some(&kept) == self.was("a.psafe3").as_ref();
        assert!(is_old || old && kept == backup, "the backup is not whole: {what}");
    }

    /// Nothing but the files that belong there.
    fn nothing_beside(&self, what: &str) {
        let known = ["a.psafe3", "a.psafe3.bak", "b.psafe3"];
        let names = self.folder.names();
        assert!(names.iter().all(|name| known.contains(&name.as_str())), "{what}: {names:?}");
    }

    fn calls(&self) -> Vec<String> {
        self.reset();
        calls(&self.folder, &self.secrets, &self.words())
    }

    /// Killed at each call, and in the midst of each write; then it is run once more.
    fn killed(&self, calls: &[String]) {
        let hows = |call: &String| match call.starts_with("write ") {
            true => vec!["before", "half", "after"],
            false => vec!["before"],
        };
        let all =
            (1..).zip(calls).flat_map(|(n, call)| hows(call).into_iter().map(move |h| (n, h)));
        for (number, how) in all {
            let what = format!("{how} call {number}, {}", calls[number - 1]);
            let ended = self.disturbed(number, how);
            assert_eq!((ended.status, ended.out.as_str()), (None, ""), "not killed: {what}");
            self.whole(&what);
            if self.held("a.psafe3") == self.was("a.psafe3") {
                assert_eq!(self.run(&[]).status, Some(0), "again after: {what}");
                assert!(self.is_new(), "again after: {what}");
            }
        }
        let ended = self.disturbed(calls.len() + 1, "before");
        assert_eq!(ended.status, Some(0), "the run has no more calls");
    }

    /// Each call fails: it is told in a line, nothing stays beside, and the safe is what it was; or
    /// the call was not needed.
    fn failed(&self, calls: &[String]) {
        for (number, how) in (1..=calls.len()).flat_map(|n| [(n, NO_SPACE), (n, IO)]) {
            let what = format!("error {how} at call {number}, {}", calls[number - 1]);
            let ended = self.disturbed(number, how);
            self.whole(&what);
            self.nothing_beside(&what);
            match ended.status {
                Some(0) => assert!(self.is_new(), "{what}"),
                Some(66 | 73) => {
                    assert!(self.held("a.psafe3") == self.was("a.psafe3"), "{what}");
                    assert_eq!((ended.out.as_str(), ended.err.lines().count()), ("", 1), "{what}");
                    assert!(ended.err.contains("(os error "), "{what}: {}", ended.err);
                }
                other => panic!("{what}: {other:?}: {}", ended.err),
            }
        }
    }

    /// A write that does less than it was asked for is gone on with; one that changes a bit is seen.
    fn garbled(&self, calls: &[String]) {
        let writes = (1..).zip(calls).filter(|(_, call)| call.starts_with("write "));
        for (number, call) in writes {
            assert_eq!(self.disturbed(number, "short").status, Some(0), "{call}");
            assert!(self.is_new(), "{call}");
            let ended = self.disturbed(number, "garble");
            assert_eq!((ended.status, ended.out.as_str()), (Some(73), ""), "{call}");
            assert!(ended.err.contains("gives back other bytes"), "{}", ended.err);
            assert!(self.held("a.psafe3") == self.was("a.psafe3"), "{call}");
            self.nothing_beside(call);
        }
    }

    fn all(&self) {
        let calls = self.calls();
        assert!(calls.len() > 10, "{calls:?}");
        self.killed(&calls);
        self.failed(&calls);
        self.garbled(&calls);
    }
}

fn with_backup() -> Vec<(&'static str, Vec<u8>)> {
    vec![("a.psafe3", safe()), ("a.psafe3.bak", older())]
}

const OPENED: &str = "--passphrase-file SECRETS/passphrase --now 1793606400";

macro_rules! saves {
    ($($name:ident: $words:literal, $passphrase:expr, $before:expr;)*) => {
        $(#[test]
        fn $name() {
            let words = format!("{} {OPENED}", $words).leak();
            let name = stringify!($name);
            Scene::new(&Save { name, words, passphrase: $passphrase }, $before).all();
        })*
    };
}

saves! {
    set: "set FILE Printer password user=print --password-file SECRETS/password",
        PASSPHRASE, with_backup();
    add: "add FILE title=Mill --password-file SECRETS/password", PASSPHRASE, with_backup();
    remove: "remove FILE 1", PASSPHRASE, with_backup();
    passphrase: "passphrase FILE --new-passphrase-file SECRETS/new", NEW, with_backup();
}

#[test]
fn new() {
    let words = "new FILE --new-passphrase-file SECRETS/new --iter 2048 --now 1793606400";
    Scene::new(&Save { name: "new", words, passphrase: NEW }, Vec::new()).all();
}

/// The file that is written again stands under another name.
#[test]
fn resave() {
    let words = "resave FILE FILE --passphrase-file SECRETS/passphrase";
    let before = vec![("b.psafe3", safe()), ("a.psafe3", older())];
    let save = Save { name: "resave", words, passphrase: PASSPHRASE };
    let mut scene = Scene::new(&save, vec![("a.psafe3", safe())]);
    scene.before = before;
    scene.arguments[1] = path(&scene.folder.0.join("b.psafe3")).to_string();
    scene.all();
}

/// No random bytes, no save: not at any of the places that need some.
#[test]
fn no_random_bytes() {
    let words = format!("add FILE title=Mill --password-file SECRETS/password {OPENED}").leak();
    let scene = Scene::new(&Save { name: "random", words, passphrase: PASSPHRASE }, with_backup());
    let only = ("SHIM_ONLY", "getrandom");
    let mut number = 0;
    loop {
        number += 1;
        scene.reset();
        let at = number.to_string();
        let ended = scene.run(&[only, ("SHIM_AT", &at), ("SHIM_HOW", "38")]);
        if ended.status == Some(0) {
            break;
        }
        assert_eq!((ended.status, ended.out.as_str()), (Some(73), ""), "{}", ended.err);
        assert!(scene.held("a.psafe3") == scene.was("a.psafe3"));
        assert_eq!(ended.err.lines().count(), 1, "{}", ended.err);
        scene.nothing_beside("no random bytes");
    }
    // A UUID, salt, two keys, an initial vector, two names, and some fill.
    assert!(number > 12, "{number}");
}

/// What a save does, in order: nothing is renamed before it is on the disk and was read back.
#[test]
fn in_order() {
    let words = format!("remove FILE 1 {OPENED}").leak();
    let scene = Scene::new(&Save { name: "order", words, passphrase: PASSPHRASE }, with_backup());
    let expected = [
        "statx /a.psafe3",
        "open64 /a.psafe3",
        "statx /a.psafe3",
        "flock /a.psafe3",
        "statx /a.psafe3",
        "read /a.psafe3",
        "read /a.psafe3",
        "open64 /.a.psafe3.*.new",
        "write /.a.psafe3.*.new",
        "fchown /.a.psafe3.*.new",
        "statx /.a.psafe3.*.new",
        "fchmod /.a.psafe3.*.new",
        "fsync /.a.psafe3.*.new",
        "lseek64 /.a.psafe3.*.new",
        "read /.a.psafe3.*.new",
        "read /.a.psafe3.*.new",
        "close /.a.psafe3.*.new",
        "statx /a.psafe3.bak",
        "linkat /.a.psafe3.*.new",
        "rename /a.psafe3.bak",
        "unlink /.a.psafe3.*.new",
        "rename /a.psafe3",
        "unlink /.a.psafe3.*.new",
        "open64 ",
        "fsync ",
        "close ",
        "close /a.psafe3",
    ];
    assert_eq!(scene.calls(), expected);
}
