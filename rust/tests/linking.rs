//! A crate that depends on the library, built from nothing: with the archive elsewhere, with none
//! there, and for another machine.

mod common;

use common::elsewhere::built;
use std::ffi::OsStr;
use std::fs;
use std::path::{Path, PathBuf};
use std::process::Command;

const LIBRARY: &str = env!("CARGO_MANIFEST_DIR");

const PROGRAM: &str = "\
use talcfeather::{judge, version, Refusal, VERSION};

fn main() {
    assert_eq!(version(), VERSION);
    assert_eq!(judge(&[]), Err(Refusal::Body));
    println!(\"linked\");
}
";

/// A crate in a folder of its own, that nothing was built in.
struct Scratch(PathBuf);

impl Scratch {
    fn new(name: &str) -> Scratch {
        let folder = Path::new(env!("CARGO_TARGET_TMPDIR")).join(name);
        let _ = fs::remove_dir_all(&folder);
        fs::create_dir_all(folder.join("src")).unwrap();
        let package = "[package]\nname = \"scratch\"\nedition = \"2021\"\n\n[workspace]\n\n";
        let dependency = format!("[dependencies]\ntalcfeather = {{ path = '{LIBRARY}' }}\n");
        fs::write(folder.join("Cargo.toml"), package.to_string() + &dependency).unwrap();
        fs::write(folder.join("src/main.rs"), PROGRAM).unwrap();
        Scratch(folder)
    }

    /// Builds with that archive; whether it went well, and the lines that say why it did not.
    fn build(&self, archive: &Path, arguments: &[&str]) -> (bool, Vec<String>) {
        let output = Command::new(env!("CARGO"))
            .args(["build", "--offline", "--target-dir", "built"])
            .args(arguments)
            .current_dir(&self.0)
            .env("TALCFEATHER_ARCHIVE", archive)
            .output()
            .expect("cargo");
        let said = String::from_utf8(output.stderr).unwrap();
        let errors = said.lines().filter(|line| line.starts_with("error"));
        (output.status.success(), errors.map(str::to_string).collect())
    }

    /// All files that were built.
    fn files(&self) -> Vec<PathBuf> {
        let (mut files, mut folders) = (Vec::new(), vec![self.0.join("built")]);
        while let Some(folder) = folders.pop() {
            for entry in fs::read_dir(folder).unwrap() {
                let path = entry.unwrap().path();
                if path.is_dir() { &mut folders } else { &mut files }.push(path);
            }
        }
        files
    }
}

fn name(path: &Path) -> &str {
    path.file_name().and_then(OsStr::to_str).unwrap()
}

/// The archive may have any name. The library brings no program, and none of what its tests need.
#[test]
fn the_archive_elsewhere() {
    let scratch = Scratch::new("linking elsewhere");
    let archive = scratch.0.join("proved.archive");
    fs::copy(Path::new(LIBRARY).join("../target/staticlib/libtalcfeather.a"), &archive).unwrap();
    assert_eq!(scratch.build(&archive, &[]), (true, vec![]));
    let files = scratch.files();
    let program = files.iter().find(|path| path.ends_with("debug/scratch")).unwrap();
    let output = built(program).output().unwrap();
    assert_eq!((output.status.success(), &output.stdout[..]), (true, &b"linked\n"[..]));
    let is_program = |path: &&PathBuf| name(path) == "talc" || name(path).starts_with("talc-");
    assert_eq!(files.iter().find(is_program), None);
    let lock = fs::read_to_string(scratch.0.join("Cargo.lock")).unwrap();
    let packages: Vec<&str> = lock.lines().filter(|line| line.starts_with("name")).collect();
    assert_eq!(packages, ["name = \"scratch\"", "name = \"talcfeather\""]);
    // Built once, it is asked for again where the variable changes.
    assert!(!scratch.build(&archive.with_extension("gone"), &[]).0);
    assert!(scratch.build(&archive, &[]).0);
}

/// What was looked for and what to do about it, in at most three lines.
#[test]
fn no_archive() {
    let scratch = Scratch::new("linking none");
    for archive in [scratch.0.join("gone.a"), scratch.0.join("src")] {
        let (success, errors) = scratch.build(&archive, &[]);
        assert!(!success && errors.len() <= 3, "{errors:#?}");
        let said = errors.join("\n");
        let there = format!("no static library at {}", archive.display());
        for word in [&there, "make library", "TALCFEATHER_ARCHIVE"] {
            assert!(said.contains(word), "{word}: {said}");
        }
    }
}

#[test]
fn another_machine() {
    let scratch = Scratch::new("linking another machine");
    let archive = scratch.0.join("gone.a");
    let (success, errors) = scratch.build(&archive, &["--target", "aarch64-unknown-linux-gnu"]);
    assert!(!success && errors.len() <= 3, "{errors:#?}");
    let said = errors.join("\n");
    assert!(said.contains("for x86-64 alone, and this build is for aarch64"), "{said}");
}
