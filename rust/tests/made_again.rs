//! make proves and builds again exactly what has changed: in a copy of the tree, with an `rt` that
//! proves nothing and notes that it was asked to.

mod common;

use common::making::make;
use std::fs::{self, File};
use std::os::unix::fs::PermissionsExt;
use std::path::{Path, PathBuf};
use std::process::{Command, Output};
use std::time::{Duration, SystemTime};

/// What `rt lib` does in a crate's folder, by the file `does`: well, nothing, half or late. What it
/// keeps for itself goes into that crate's out/, and into out/ of each below.
const RT: &str = r#"#!/bin/sh
here=$(dirname "$0")
if [ "$1" = doc ]; then
    echo "$here/START-HERE.md"
    exit
fi
name=$(basename "$PWD")
echo "$name: $*" >>"$here/asked"
rm -rf ../words/out
mkdir -p out ../words/out/rlib
echo kept >../words/out/rlib/lib.rt
case $(cat "$here/does") in
well) echo whole >"out/lib$name.a" ;;
nothing) exit 1 ;;
half) echo half >"out/lib$name.a"; exit 1 ;;
late)
    touch -t 203801010000 ../words/src/lib.rt
    echo whole >"out/lib$name.a"
    ;;
esac
"#;

const LIBRARY: &str = "target/staticlib/libtalcfeather.a";
const PROBE: &str = "target/staticlib/libprobe.a";

/// Where the program is, on x86-64 and elsewhere.
const PROGRAMS: [&str; 2] =
    ["rust/target/release/talc", "rust/target/x86_64-unknown-linux-gnu/release/talc"];
const PAGES: [&str; 2] = ["target/pages/talc.1", "target/pages/talcfeather.3"];

/// A tree of the test's own with its `rt`, removed at its end.
struct Tree(PathBuf);

impl Tree {
    /// All is made, and what it is made from is older.
    fn new(name: &str) -> Tree {
        let name = format!("talc-{name}-{}", std::process::id());
        let tree = Tree(std::env::temp_dir().join(name));
        let root = Path::new(env!("CARGO_MANIFEST_DIR")).join("..");
        for folder in ["", "rust", "rust/talc", "crates"] {
            fs::create_dir_all(tree.0.join(folder)).unwrap();
        }
        tree.copy(&root, &["Makefile", "crates.txt", "tools", "include"]);
        tree.copy_crates(&root);
        tree.copy(&root, &["rust/src", "rust/build.rs", "rust/link.rs", "rust/Cargo.toml"]);
        tree.copy(&root, &["rust/Cargo.lock", "rust/talc/src", "rust/talc/Cargo.toml"]);
        let made = [[LIBRARY, PROBE], PROGRAMS, PAGES].concat();
        for file in [&["kit/rt", "kit/KIT-ID"], &made[..]].concat() {
            fs::create_dir_all(tree.0.join(file).parent().unwrap()).unwrap();
            fs::write(tree.0.join(file), RT).unwrap();
        }
        fs::set_permissions(tree.0.join("kit/rt"), fs::Permissions::from_mode(0o755)).unwrap();
        tree.all_at(&tree.0, hours_ago(3));
        made.iter().for_each(|made| tree.at(made, hours_ago(2)));
        tree
    }

    fn copy(&self, root: &Path, names: &[&str]) {
        for name in names {
            let mut cp = Command::new("cp");
            let copied = cp.arg("-R").arg(root.join(name)).arg(self.0.join(name)).status();
            assert!(copied.expect("cp").success());
        }
    }

    /// All but what rt keeps in there, which can take gigabytes.
    fn copy_crates(&self, root: &Path) {
        for entry in fs::read_dir(root.join("crates")).unwrap() {
            let name = entry.unwrap().file_name().into_string().unwrap();
            fs::create_dir(self.0.join("crates").join(&name)).unwrap();
            for part in ["src", "specs", "proofs", "must-fail"] {
                let part = format!("crates/{name}/{part}");
                if root.join(&part).exists() {
                    self.copy(root, &[&part]);
                }
            }
        }
    }

    fn at(&self, name: &str, time: SystemTime) {
        File::open(self.0.join(name)).unwrap().set_modified(time).unwrap();
    }

    fn all_at(&self, path: &Path, time: SystemTime) {
        if path.is_dir() {
            for entry in fs::read_dir(path).unwrap() {
                self.all_at(&entry.unwrap().path(), time);
            }
        }
        File::open(path).unwrap().set_modified(time).unwrap();
    }

    fn make(&self, goal: &str, does: &str) -> Output {
        fs::write(self.0.join("kit/does"), does).unwrap();
        make(&self.0).env("PATH", self.path()).arg(goal).output().expect("make")
    }

    /// Its own `rt` is found first.
    fn path(&self) -> String {
        format!("{}:{}", self.0.join("kit").display(), std::env::var("PATH").unwrap())
    }

    /// What `rt` was asked since last time.
    fn asked(&self) -> String {
        let asked = fs::read_to_string(self.0.join("kit/asked")).unwrap_or_default();
        let _ = fs::remove_file(self.0.join("kit/asked"));
        asked
    }

    fn made(&self, goal: &str) -> String {
        let done = self.make(goal, "well");
        assert!(done.status.success(), "{}", String::from_utf8_lossy(&done.stderr));
        self.asked()
    }

    /// The commands that make would run.
    fn planned(&self, goal: &str) -> String {
        let path = self.path();
        let mut command = make(&self.0);
        let planned = command.env("PATH", path).args(["--dry-run", goal]).output().expect("make");
        assert!(planned.status.success(), "{}", String::from_utf8_lossy(&planned.stderr));
        String::from_utf8(planned.stdout).unwrap()
    }

    fn has(&self, name: &str) -> bool {
        self.0.join(name).exists()
    }
}

impl Drop for Tree {
    fn drop(&mut self) {
        let _ = fs::remove_dir_all(&self.0);
    }
}

fn hours_ago(hours: u64) -> SystemTime {
    SystemTime::now() - Duration::from_secs(hours * 3600)
}

const TALCFEATHER: &str = "talcfeather: lib --cpu x86-64\n";
const PROBED: &str = "probe: lib --cpu x86-64\n";

#[test]
fn what_it_is_made_from() {
    let tree = Tree::new("made-from");
    assert_eq!((tree.made("library"), tree.made("probe")), Default::default());
    let code = ["crates/talcfeather/src/lib.rt", "crates/words/src/lib.rt"];
    let rest = ["crates/twofish/specs/Twofish.antt", "crates/safe/proofs/Demands.antt"];
    let around = ["crates.txt", "kit/KIT-ID", "crates/mac/proofs"];
    for newer in [&code[..], &rest, &around].concat() {
        tree.at(newer, hours_ago(1));
        assert_eq!(tree.made("library"), TALCFEATHER, "{newer} is newer");
        assert_eq!(tree.made("library"), "", "and then no more");
        tree.at(newer, hours_ago(3));
        tree.at(LIBRARY, hours_ago(2));
    }
}

#[test]
fn what_it_is_not_made_from() {
    let tree = Tree::new("not-made-from");
    let edit = fs::read_dir(tree.0.join("crates/words/must-fail")).unwrap().next().unwrap();
    tree.all_at(&edit.unwrap().path(), hours_ago(1));
    for newer in ["crates/words/must-fail", "crates/probe", "crates/try_hash", "tools"] {
        tree.all_at(&tree.0.join(newer), hours_ago(1));
    }
    // Nor is what rt keeps, or that it moved it.
    fs::create_dir_all(tree.0.join("crates/words/out/rlib")).unwrap();
    fs::write(tree.0.join("crates/words/out/rlib/lib.rt"), "").unwrap();
    assert_eq!(tree.made("library"), "");
    assert_eq!(tree.made("probe"), PROBED);
    tree.at("crates/rows/src/lib.rt", hours_ago(0));
    assert_eq!(tree.made("probe"), "");
    // What an editor leaves, or a person, is no source, though it makes its folder newer.
    std::os::unix::fs::symlink("nowhere", tree.0.join("crates/uuids/src/.#lib.rt")).unwrap();
    fs::write(tree.0.join("crates/uuids/src/lib (copy).rt"), "").unwrap();
    assert_eq!(tree.made("library"), TALCFEATHER);
}

/// A file that went leaves nothing that is newer but its folder.
#[test]
fn a_file_that_went() {
    let tree = Tree::new("went");
    fs::remove_file(tree.0.join("crates/uuids/src/table.rt")).unwrap();
    assert_eq!(tree.made("library"), TALCFEATHER);
    assert_eq!(tree.made("library"), "");
    assert_eq!(tree.made("probe"), PROBED);
}

/// No archive of a proof that failed is taken for good, whatever was left of it.
#[test]
fn a_proof_that_fails() {
    let tree = Tree::new("fails");
    for (does, left) in [("nothing", true), ("half", true), ("late", false)] {
        tree.at("crates/words/src/lib.rt", hours_ago(1));
        fs::write(tree.0.join(LIBRARY), "older").unwrap();
        tree.at(LIBRARY, hours_ago(2));
        assert!(!tree.make("library", does).status.success(), "{does}");
        assert_eq!(tree.asked(), TALCFEATHER);
        let library = fs::read(tree.0.join(LIBRARY)).ok();
        assert_eq!(library.as_deref(), left.then_some(&b"older"[..]), "{does}");
        tree.at("crates/words/src/lib.rt", hours_ago(1));
        assert_eq!(tree.made("library"), TALCFEATHER, "after {does}");
        assert_eq!(tree.made("library"), "");
        tree.at(LIBRARY, hours_ago(2));
    }
}

#[test]
fn from_nothing() {
    let tree = Tree::new("nothing");
    assert_eq!(tree.made("clean"), "");
    assert!(!tree.has("target") && !tree.has("rust/target") && tree.has("rust/src"));
    assert_eq!(tree.made("library"), TALCFEATHER);
    assert!(tree.has("crates/words/out") && tree.has("crates/talcfeather/out"));
    assert_eq!(tree.made("clean"), "");
    assert!(!tree.has("crates/words/out") && !tree.has("crates/talcfeather/out"));
    assert!(tree.has("crates/words/src"));
    assert_eq!(tree.made("library"), TALCFEATHER);
    assert_eq!(tree.made("probe"), PROBED);
    fs::remove_dir_all(tree.0.join("crates/uuids")).unwrap();
    tree.at("crates.txt", hours_ago(0));
    assert!(!tree.make("library", "well").status.success(), "a crate that crates.txt has is gone");
    assert_eq!(tree.asked(), "");
}

const CARGO: &str = "cargo build";
const PAGE_1: &str = "tools/man talc >";
const PAGE_3: &str = "tools/man talcfeather >";

/// Of the program and the pages, those for which there is something newer.
#[test]
fn program_and_pages() {
    let tree = Tree::new("program");
    let cases: [(&str, &[&str]); 9] = [
        ("README.md", &[]),
        ("rust/talc/src/main.rs", &[CARGO]),
        ("rust/src/lib.rs", &[CARGO]),
        ("rust/Cargo.lock", &[CARGO]),
        ("rust/talc/src/help.txt", &[CARGO, PAGE_1]),
        ("rust/talc/Cargo.toml", &[CARGO, PAGE_1]),
        ("include/talcfeather.h", &[PAGE_3]),
        ("tools/pages/roff.awk", &[PAGE_1, PAGE_3]),
        (LIBRARY, &[CARGO]),
    ];
    fs::write(tree.0.join("README.md"), "").unwrap();
    for (newer, again) in cases {
        tree.at(newer, hours_ago(1));
        let planned = tree.planned("logins");
        for command in [CARGO, PAGE_1, PAGE_3] {
            let expected = again.contains(&command);
            assert_eq!(planned.contains(command), expected, "{newer} is newer: {command}");
        }
        assert!(!planned.contains("tools/archive"));
        tree.at(newer, hours_ago(if newer == LIBRARY { 2 } else { 3 }));
    }
}

/// Whatever is missing is made first, in whichever order it is asked for.
#[test]
fn before_it_is_installed() {
    let tree = Tree::new("install");
    assert_eq!(tree.made("clean"), "");
    let planned = tree.planned("install");
    let at = |command: &str| planned.find(command).unwrap_or_else(|| panic!("no {command}"));
    assert!(at("tools/archive talcfeather") < at(CARGO));
    for made in [CARGO, PAGE_1, PAGE_3, "tools/pc"] {
        assert!(at(made) < at("install -d"), "{made}");
    }
}

/// What a caller of cargo may set for another build is not for this one.
#[test]
fn by_its_own_archive() {
    let tree = Tree::new("own");
    for variable in ["TALCFEATHER_ARCHIVE", "CARGO_BUILD_TARGET"] {
        let told = format!("told:\n\t@echo \"[$${variable}]\"");
        let mut command = make(&tree.0);
        let done = command.env(variable, "another").args(["--eval", &told, "told"]).output();
        assert_eq!(String::from_utf8(done.unwrap().stdout).unwrap(), "[]\n", "{variable}");
    }
}
