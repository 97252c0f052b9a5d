//! .ci/run passes where all has passed, and nowhere else: with an `rt` and a `cargo` that say what a
//! test has them say.

mod common;

use common::making::alone;
use std::fs;
use std::os::unix::fs::PermissionsExt;
use std::path::{Path, PathBuf};

/// Each notes the folder's name and what it was asked, then does what the test says.
const RT: &str = r#"#!/bin/sh
here=$(dirname "$0")
name=$(basename "$PWD")
[ "$1" = doc ] && exit
echo "$name: rt $*" >>"$here/asked"
case $1 in
ci) cat "$here/said"; exit "$(cat "$here/rt-ci")" ;;
lib) mkdir -p out && echo made >"out/lib$name.a"; exit "$(cat "$here/rt-lib")" ;;
esac
"#;
const CARGO: &str = r#"#!/bin/sh
here=$(dirname "$0")
echo "$(basename "$PWD"): cargo $*" >>"$here/asked"
exit "$(cat "$here/cargo-test")"
"#;
/// So that no emulator is asked for.
const UNAME: &str = "#!/bin/sh\necho x86_64\n";

/// What `rt ci` says in its last line but one, of edits, and in its last.
const OK: &str = "rt: ok; handles allowed: none; must-fail edits: 164 refused";
const DONE: &str = "; every proof and must-fail edit was done in this run";
const VERDICT: &str = "206 passed, 0 failed";

/// A tree of the test's own, removed at its end.
struct Tree(PathBuf);

impl Tree {
    /// Where nothing fails.
    fn new(name: &str) -> Tree {
        let tree = Tree(std::env::temp_dir().join(format!("talc-{name}-{}", std::process::id())));
        let root = Path::new(env!("CARGO_MANIFEST_DIR")).join("..");
        for folder in ["kit", ".ci", "tools", "docs", "rust/src", "rust/talc/src"] {
            fs::create_dir_all(tree.0.join(folder)).unwrap();
        }
        for file in [".ci/run", "Makefile"] {
            fs::copy(root.join(file), tree.0.join(file)).unwrap();
        }
        for file in ["test", "sources", "archive", "links"] {
            fs::copy(root.join("tools").join(file), tree.0.join("tools").join(file)).unwrap();
        }
        for name in ["probe", "talcfeather"] {
            fs::create_dir_all(tree.0.join("crates").join(name).join("src")).unwrap();
        }
        tree.write("crates.txt", "probe staticlib:\ntalcfeather staticlib:\n");
        tree.write("README.md", "[this page](README.md)\n");
        for (name, program) in [("rt", RT), ("cargo", CARGO), ("uname", UNAME)] {
            tree.write(&format!("kit/{name}"), program);
            let file = tree.0.join("kit").join(name);
            fs::set_permissions(file, fs::Permissions::from_mode(0o755)).unwrap();
        }
        tree.write("kit/said", &format!("rt: words proved\n{OK}{DONE}\n{VERDICT}\n"));
        ["rt-ci", "rt-lib", "cargo-test"].iter().for_each(|part| tree.ends(part, 0));
        tree
    }

    fn write(&self, name: &str, text: &str) {
        fs::write(self.0.join(name), text).unwrap();
    }

    /// How that part ends from now on.
    fn ends(&self, part: &str, status: i32) {
        self.write(&format!("kit/{part}"), &status.to_string());
    }

    /// Whether .ci/run passes, the lines that it prints, and what was asked, in order.
    fn run(&self) -> (bool, Vec<String>, Vec<String>) {
        let path = format!("{}:{}", self.0.join("kit").display(), std::env::var("PATH").unwrap());
        let output = alone(self.0.join(".ci/run"), Path::new("/")).env("PATH", path).output();
        let output = output.expect(".ci/run");
        let lines = |text: &str| text.lines().map(str::to_string).collect();
        let asked = fs::read_to_string(self.0.join("kit/asked")).unwrap();
        fs::remove_file(self.0.join("kit/asked")).unwrap();
        let said = String::from_utf8(output.stdout).unwrap();
        (output.status.success(), lines(&said), lines(&asked))
    }

    /// It fails, has asked so many things, and does not end as if it had passed.
    fn fails(&self, asked: usize, why: &str) {
        let (passed, said, all) = self.run();
        assert!(!passed, "{why}");
        assert_eq!(all.len(), asked, "{why}: {all:?}");
        assert!(!said.last().is_some_and(|line| line.ends_with(", 0 failed")), "{why}: {said:?}");
    }
}

impl Drop for Tree {
    fn drop(&mut self) {
        let _ = fs::remove_dir_all(&self.0);
    }
}

/// `rt ci` by itself, over the tree as it is; then the libraries; then all tests over these.
#[test]
fn all_passes() {
    let tree = Tree::new("gate");
    let top = tree.0.file_name().unwrap().to_str().unwrap();
    let (passed, said, asked) = tree.run();
    assert!(passed);
    assert_eq!(asked[0], format!("{top}: rt ci"));
    let built = ["probe: rt lib --cpu x86-64", "talcfeather: rt lib --cpu x86-64"];
    assert_eq!(asked[1..3], built);
    assert_eq!(asked[3..], ["rust: cargo test --offline --release --workspace"]);
    assert_eq!(said, ["rt: words proved", &format!("{OK}{DONE}"), VERDICT]);
    for name in ["probe", "talcfeather"] {
        assert!(tree.0.join(format!("target/staticlib/lib{name}.a")).exists());
    }
}

#[test]
fn a_part_fails() {
    for (part, asked) in [("rt-ci", 1), ("rt-lib", 2), ("cargo-test", 4)] {
        let tree = Tree::new(&format!("gate-{part}"));
        tree.ends(part, 1);
        tree.fails(asked, part);
        tree.ends(part, 0);
        assert!(tree.run().0);
    }
    let tree = Tree::new("gate-verdict");
    tree.write("kit/said", "rt: FAILED: words\n205 passed, 1 failed\n");
    tree.ends("rt-ci", 1);
    let (passed, said, _) = tree.run();
    assert!(!passed);
    assert_eq!(said, ["rt: FAILED: words", "205 passed, 1 failed"]);
    let tree = Tree::new("gate-links");
    tree.write("README.md", "[a page](docs/gone.md)\n");
    tree.fails(1, "a link leads nowhere");
}

/// What `rt ci` says when it does not fail.
#[test]
fn what_is_said() {
    let tree = Tree::new("gate-said");
    let cases = [
        ("1 bad", format!("{OK}, 1 bad{DONE}\n{VERDICT}\n")),
        ("10 bad", format!("{OK}, 10 bad{DONE}\n{VERDICT}\n")),
        ("a limit", format!("{OK}, 2 of them only by a limit, 12 bad{DONE}\n{VERDICT}\n")),
        ("no line of edits", format!("rt: words proved\n{VERDICT}\n")),
        ("no verdict", format!("{OK}{DONE}\n")),
        ("names", format!("{OK}{DONE}\n{VERDICT} (words and the crates below alone)\n")),
        ("a failure", format!("{OK}{DONE}\n205 passed, 1 failed\n")),
        ("ten failures", format!("{OK}{DONE}\n205 passed, 10 failed\n")),
    ];
    for (what, said) in cases {
        tree.write("kit/said", &said);
        tree.fails(1, what);
    }
    for none in ["", ", 0 bad", ", 10 of them only by a limit"] {
        tree.write("kit/said", &format!("{OK}{none}{DONE}\n{VERDICT}\n"));
        assert!(tree.run().0, "{none}");
    }
}
