//! `make install` into a folder of the test's own, with a space in its name: what is there, that a
//! program is built against it by pkg-config's word alone, and that `make uninstall` takes it away.

mod common;

use common::elsewhere::{built, there};
use common::making;
use std::ffi::{OsStr, OsString};
use std::fs;
use std::os::unix::fs::PermissionsExt;
use std::path::{Path, PathBuf};
use std::process::{Command, Output};
use std::sync::{Mutex, PoisonError};

/// The files below the prefix, and their modes.
const INSTALLED: [(&str, u32); 9] = [
    ("bin/talc", 0o755),
    ("include/talcfeather.h", 0o644),
    ("lib/libtalcfeather.a", 0o644),
    ("lib/pkgconfig/talcfeather.pc", 0o644),
    ("share/bash-completion/completions/talc", 0o644),
    ("share/fish/vendor_completions.d/talc.fish", 0o644),
    ("share/man/man1/talc.1", 0o644),
    ("share/man/man3/talcfeather.3", 0o644),
    ("share/zsh/site-functions/_talc", 0o644),
];

fn root() -> PathBuf {
    Path::new(env!("CARGO_MANIFEST_DIR")).join("..").canonicalize().unwrap()
}

/// A folder of this test's own, removed at its end.
struct Folder(PathBuf);

impl Folder {
    fn new(name: &str) -> Folder {
        let name = format!("talc, {name} {}", std::process::id());
        let folder = std::env::temp_dir().join(name);
        fs::create_dir_all(&folder).unwrap();
        Folder(folder)
    }

    fn put(&self, name: &str) {
        let path = self.0.join(name);
        fs::create_dir_all(path.parent().unwrap()).unwrap();
        fs::write(path, name).unwrap();
    }

    /// Every file in it, by path and mode, in order.
    fn files(&self) -> Vec<(String, u32)> {
        let (mut files, mut folders) = (Vec::new(), vec![self.0.clone()]);
        while let Some(folder) = folders.pop() {
            for entry in fs::read_dir(folder).unwrap() {
                let entry = entry.unwrap();
                if entry.file_type().unwrap().is_dir() {
                    folders.push(entry.path());
                    continue;
                }
                let name = entry.path().strip_prefix(&self.0).unwrap().to_str().unwrap().into();
                files.push((name, entry.metadata().unwrap().permissions().mode() & 0o7777));
            }
        }
        files.sort();
        files
    }
}

impl Drop for Folder {
    fn drop(&mut self) {
        let _ = fs::remove_dir_all(&self.0);
    }
}

fn set(variable: &str, path: &Path) -> OsString {
    let mut set = OsString::from(format!("{variable}="));
    set.push(path);
    set
}

/// make at the project's root; the tests of this file share what it makes there, and take turns.
fn make(arguments: &[&OsStr]) -> Output {
    static TURN: Mutex<()> = Mutex::new(());
    let _turn = TURN.lock().unwrap_or_else(PoisonError::into_inner);
    making::make(&root()).args(arguments).output().expect("make")
}

fn text(bytes: Vec<u8>) -> String {
    String::from_utf8(bytes).unwrap()
}

/// A goal of make with these variables. It proves nothing: that would take minutes, and test
/// another archive than the one that is there.
fn run(goal: &str, variables: &[OsString]) -> Output {
    let mut arguments: Vec<&OsStr> = vec!["--dry-run".as_ref(), goal.as_ref()];
    arguments.extend(variables.iter().map(OsString::as_os_str));
    let planned = text(make(&arguments).stdout);
    assert!(!planned.contains("tools/archive"), "the archive is old: run `make library` first");
    make(&arguments[1..])
}

fn made(goal: &str, variables: &[OsString]) {
    let done = run(goal, variables);
    assert!(done.status.success(), "make {goal}: {}", text(done.stderr));
}

fn installed(folder: &Folder) {
    made("install", &[set("PREFIX", &folder.0)]);
}

fn names(files: &[(&str, u32)], below: &str) -> Vec<(String, u32)> {
    files.iter().map(|(name, mode)| (format!("{below}{name}"), *mode)).collect()
}

/// What pkg-config says, if it agrees, of the talcfeather whose file is in that folder.
fn pkg_config(folder: &Path, arguments: &[&str]) -> Option<String> {
    assert!(there("pkg-config"), "these tests need pkg-config");
    let output = Command::new("pkg-config")
        .env("PKG_CONFIG_PATH", folder)
        .env_remove("PKG_CONFIG_SYSROOT_DIR")
        .args(arguments)
        .arg("talcfeather")
        .output()
        .unwrap();
    output.status.success().then(|| text(output.stdout).trim_end().to_string())
}

/// The example, compiled with no other word on where things are than pkg-config's; its output.
fn example(pkg_config_folder: &Path, folder: &Folder) -> (Option<i32>, String) {
    let flags = pkg_config(pkg_config_folder, &["--cflags", "--libs"]).expect("its file is found");
    let program = folder.0.join("list");
    // The shell takes apart what pkg-config says, as it does in a Makefile.
    let status = Command::new("sh")
        .current_dir(&folder.0)
        .args(["-c", &format!("\"$0\" \"$@\" {flags}")])
        .arg(std::env::var_os("TALC_GCC").unwrap_or("gcc".into()))
        .args(["-std=c99", "-Wall", "-Wextra", "-Wpedantic", "-Werror", "-O2", "-o"])
        .args([program.as_path(), &root().join("examples/list.c")])
        .status();
    assert!(status.expect("sh").success(), "the example compiles with {flags}");
    let run = built(&program)
        .arg(root().join("examples/floor.psafe3"))
        .arg("a whole floor of lathes")
        .output()
        .unwrap();
    fs::remove_file(program).unwrap();
    (run.status.code(), text(run.stdout))
}

fn logins() -> (Option<i32>, String) {
    let logins = ["Lathe 3\tworker", "Mill 1, spindle\tworker", "Label printer\tprint"];
    (Some(0), logins.join("\t\n") + "\t\nSägewerk\tmüller\t\n")
}

#[test]
fn what_is_there() {
    let folder = Folder::new("what is there");
    installed(&folder);
    assert_eq!(folder.files(), names(&INSTALLED, ""));
    let same = [
        ("include/talcfeather.h", "include/talcfeather.h"),
        ("lib/libtalcfeather.a", "target/staticlib/libtalcfeather.a"),
    ];
    for (there, here) in same {
        let (there, here) = (fs::read(folder.0.join(there)), fs::read(root().join(here)));
        assert!(there.unwrap() == here.unwrap(), "the same bytes");
    }
    let shells = [
        ("bash", "bash-completion/completions/talc"),
        ("fish", "fish/vendor_completions.d/talc.fish"),
        ("zsh", "zsh/site-functions/_talc"),
    ];
    for (shell, file) in shells {
        let there = fs::read_to_string(folder.0.join("share").join(file)).unwrap();
        let told = built(folder.0.join("bin/talc")).args(["completion", shell]).output().unwrap();
        assert!(there == text(told.stdout), "{file} is what talc completion {shell} says");
    }
    for (page, name) in [("man1/talc.1", "talc"), ("man3/talcfeather.3", "talcfeather")] {
        let there = fs::read_to_string(folder.0.join("share/man").join(page)).unwrap();
        let made = Command::new(root().join("tools/man")).arg(name).output().unwrap();
        assert!(there == text(made.stdout), "{page} is what tools/man makes");
    }
}

#[test]
fn a_program_against_it() {
    let folder = Folder::new("a program against it");
    installed(&folder);
    assert_eq!(example(&folder.0.join("lib/pkgconfig"), &folder), logins());
}

#[test]
fn the_program() {
    let folder = Folder::new("the program");
    installed(&folder);
    let talc = |arguments: &[&str]| {
        let output =
            built(folder.0.join("bin/talc")).current_dir(root()).args(arguments).output().unwrap();
        (output.status.code(), text(output.stdout))
    };
    let passphrase = ["--passphrase-file", "examples/floor.passphrase"];
    let (status, out) = talc(&[&["list", "examples/floor.psafe3"], &passphrase[..]].concat());
    assert_eq!(status, Some(0));
    assert_eq!(out.lines().next(), Some("Lathe 3\tworker\tFloor 2.Lathes\t2028-01-01"));
    assert_eq!(out.lines().count(), 4);
    let help = fs::read_to_string(root().join("rust/talc/src/help.txt")).unwrap();
    assert_eq!(talc(&["--help"]), (Some(0), help));
}

/// The version is the header's number, and all folders go by the prefix.
#[test]
fn the_file_for_pkg_config() {
    let folder = Folder::new("the file for pkg-config");
    installed(&folder);
    let says = |arguments: &[&str]| pkg_config(&folder.0.join("lib/pkgconfig"), arguments);
    let header = fs::read_to_string(root().join("include/talcfeather.h")).unwrap();
    let version = header.lines().find_map(|line| line.strip_prefix("#define TALC_VERSION "));
    let version: u32 = version.expect("a version").trim().parse().unwrap();
    assert_eq!(says(&["--modversion"]), Some(version.to_string()));
    assert!(says(&[&format!("--atleast-version={version}")]).is_some());
    assert!(says(&[&format!("--atleast-version={}", version + 1)]).is_none());
    assert_eq!(says(&["--variable=prefix"]), folder.0.to_str().map(str::to_string));
    let moved = "--define-variable=prefix=/moved";
    assert_eq!(says(&[moved, "--variable=libdir"]), Some("/moved/lib".into()));
    assert_eq!(says(&[moved, "--variable=includedir"]), Some("/moved/include".into()));
}

/// All goes below DESTDIR, and nothing that is installed knows of it.
#[test]
fn below_another_root() {
    let folder = Folder::new("below another root");
    let (stage, prefix) = (folder.0.join("the stage"), folder.0.join("the prefix"));
    let variables = [set("DESTDIR", &stage), set("PREFIX", &prefix)];
    made("install", &variables);
    let below = format!("the stage{}/", prefix.display());
    assert_eq!(folder.files(), names(&INSTALLED, &below));
    let said = pkg_config(&folder.0.join(&below).join("lib/pkgconfig"), &["--variable=prefix"]);
    assert_eq!(said.as_deref(), prefix.to_str());
    made("uninstall", &variables);
    assert_eq!(folder.files(), []);
}

#[test]
fn folders_of_their_own() {
    let folder = Folder::new("folders of their own");
    let named = ["BINDIR", "LIBDIR", "INCLUDEDIR", "MANDIR", "PKGCONFIGDIR", "SHAREDIR"];
    let mut variables = vec![set("PREFIX", &folder.0.join("unused"))];
    variables.extend(named.map(|name| set(name, &folder.0.join("a").join(name))));
    made("install", &variables);
    let there = [
        ("BINDIR/talc", 0o755),
        ("INCLUDEDIR/talcfeather.h", 0o644),
        ("LIBDIR/libtalcfeather.a", 0o644),
        ("MANDIR/man1/talc.1", 0o644),
        ("MANDIR/man3/talcfeather.3", 0o644),
        ("PKGCONFIGDIR/talcfeather.pc", 0o644),
        ("SHAREDIR/bash-completion/completions/talc", 0o644),
        ("SHAREDIR/fish/vendor_completions.d/talc.fish", 0o644),
        ("SHAREDIR/zsh/site-functions/_talc", 0o644),
    ];
    assert_eq!(folder.files(), names(&there, "a/"));
    assert_eq!(example(&folder.0.join("a/PKGCONFIGDIR"), &folder), logins());
    made("uninstall", &variables);
    assert_eq!(folder.files(), []);
}

/// Installed twice, and once more after it is gone; what others put there stays.
#[test]
fn taken_away() {
    let folder = Folder::new("taken away");
    let others = [
        "bin/talcum",
        "include/talcfeather.h.old",
        "lib/libtalc.a",
        "lib/pkgconfig/talc.pc",
        "share/man/man1/talc.1.gz",
        "share/man/man3/talc.3",
    ];
    others.iter().for_each(|name| folder.put(name));
    let before = folder.files();
    assert_eq!(before.len(), others.len());
    for _ in 0..2 {
        installed(&folder);
        installed(&folder);
        assert_eq!(folder.files().len(), others.len() + INSTALLED.len());
        made("uninstall", &[set("PREFIX", &folder.0)]);
        assert_eq!(folder.files(), before);
    }
    made("uninstall", &[set("PREFIX", &folder.0)]);
    assert_eq!(folder.files(), before);
    others.iter().for_each(|name| {
        assert_eq!(fs::read_to_string(folder.0.join(name)).unwrap(), *name);
    });
}

/// A prefix that others could not find again is refused, and nothing is installed.
#[test]
fn a_relative_prefix() {
    let folder = Folder::new("a relative prefix");
    let variables = [set("PREFIX", Path::new("here")), set("DESTDIR", &folder.0.join(""))];
    let done = run("install", &variables);
    assert!(!done.status.success() && text(done.stderr).contains("'here' does not start with /"));
    assert_eq!(folder.files(), []);
}
