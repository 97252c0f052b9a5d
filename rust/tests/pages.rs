//! The man pages: every line of the help text and of the header's comments, every option, status,
//! constant and call is in there, and groff has nothing to say against them.

mod common;

use common::elsewhere::there;
use std::collections::BTreeSet;
use std::fs;
use std::io::Write;
use std::path::{Path, PathBuf};
use std::process::{Command, Stdio};

fn root() -> PathBuf {
    Path::new(env!("CARGO_MANIFEST_DIR")).join("..")
}

fn read(name: &str) -> String {
    fs::read_to_string(root().join(name)).unwrap()
}

fn text(bytes: Vec<u8>) -> String {
    String::from_utf8(bytes).unwrap()
}

/// What tools/man makes of the texts in that tree; else what it says.
fn page(root: &Path, name: &str) -> Result<String, String> {
    let made = Command::new(root.join("tools/man")).arg(name).output().unwrap();
    match made.status.success() && made.stderr.is_empty() {
        true => Ok(text(made.stdout)),
        false => Err(text(made.stderr)),
    }
}

/// The page as groff lays it out for a terminal of 80 columns; none where there is no groff.
fn laid_out(page: &str, device: &str) -> Option<String> {
    if !there("groff") {
        return None;
    }
    let mut groff = Command::new("groff")
        .args(["-man", "-ww", "-P-c", "-P-b", "-P-o", "-P-u", device])
        .stdin(Stdio::piped())
        .stdout(Stdio::piped())
        .stderr(Stdio::piped())
        .spawn()
        .unwrap();
    groff.stdin.take().unwrap().write_all(page.as_bytes()).unwrap();
    let output = groff.wait_with_output().unwrap();
    assert!(output.status.success() && output.stderr.is_empty(), "{}", text(output.stderr));
    Some(text(output.stdout))
}

/// The page's own source without its commands.
fn unmarked(page: &str) -> String {
    let marks = [
        ("\\fB", ""),
        ("\\fI", ""),
        ("\\fR", ""),
        ("\\&", ""),
        ("\\ ", " "),
        ("\\-", "-"),
        ("\\(aq", "'"),
        ("\\(ga", "`"),
        ("\\(dq", "\""),
        ("\\(ha", "^"),
        ("\\(ti", "~"),
        ("\\e", "\\"),
    ];
    let lines = page.lines().map(|line| match line.split_once(' ') {
        Some((".SH" | ".SS" | ".BR", words)) => words,
        _ if line.starts_with('.') => "",
        _ => line,
    });
    let text = lines.collect::<Vec<_>>().join("\n");
    marks.iter().fold(text, |text, (mark, meaning)| text.replace(mark, meaning))
}

/// What a reader sees, by groff and by the source alone.
fn seen(root: &Path, name: &str) -> Vec<String> {
    let page = page(root, name).expect("a page");
    let mut seen = vec![unmarked(&page)];
    if let Some(text) = laid_out(&page, "-Tascii") {
        assert!(text.lines().all(|line| line.len() <= 80), "fits a terminal");
        seen.push(text);
    }
    laid_out(&page, "-Tutf8");
    seen
}

/// Without what may change when lines are laid out anew, and without the marks of names.
fn bare(text: &str) -> String {
    text.chars().filter(|c| !c.is_whitespace() && *c != '`').collect()
}

fn has(text: &str, line: &str) {
    assert!(bare(text).contains(&bare(line)), "not in the page: {line}");
}

/// The part of a page below that heading.
fn section<'a>(text: &'a str, heading: &str) -> &'a str {
    let start = text.find(&format!("\n{heading}\n")).unwrap_or_else(|| panic!("no {heading}"));
    &text[start + heading.len() + 2..]
}

fn in_order(text: &str, headings: &[&str]) {
    headings.iter().fold(text, |rest, heading| section(rest, heading));
}

#[test]
fn of_the_program() {
    let help = read("rust/talc/src/help.txt");
    for text in seen(&root(), "talc") {
        let headings = ["NAME", "SYNOPSIS", "DESCRIPTION", "COMMANDS", "OPTIONS", "EXIT STATUS"];
        in_order(&text, &[&headings[..], &["SEE ALSO"]].concat());
        help.lines().filter(|line| *line != "Exit status:").for_each(|line| has(&text, line));
        let options: BTreeSet<&str> =
            help.split_whitespace().filter(|word| word.starts_with("--")).collect();
        assert!(options.len() > 8);
        options.iter().for_each(|option| has(section(&text, "OPTIONS"), option));
        let commands: Vec<&str> =
            help.lines().filter_map(|line| line.strip_prefix("  talc ")).collect();
        assert!(commands.len() > 8);
        for command in commands {
            let typed = command.split("  ").next().unwrap();
            has(section(&text, "SYNOPSIS"), &format!("talc {typed} [OPTION ..]"));
        }
    }
}

/// Each on a line of its own, and no other number.
#[test]
fn statuses() {
    let help = read("rust/talc/src/help.txt");
    let (_, list) = help.split_once("Exit status:\n").expect("a list");
    let statuses: Vec<&str> = list
        .lines()
        .filter_map(|line| line.strip_prefix("  "))
        .filter(|line| line.starts_with(|c: char| c.is_ascii_digit()))
        .map(|line| line.split("  ").next().unwrap())
        .collect();
    assert_eq!(statuses[..2], ["0", "1"]);
    for text in seen(&root(), "talc") {
        let (told, _) = section(&text, "EXIT STATUS").split_once("SEE ALSO").unwrap();
        let told = told
            .lines()
            .map(|line| line.trim_start().split("  ").next().unwrap())
            .filter(|line| line.starts_with(|c: char| c.is_ascii_digit()));
        assert_eq!(told.collect::<Vec<_>>(), statuses);
    }
}

/// The lines of the comments that start at the margin, but for rules; the first is the name.
fn comments(header: &str) -> Vec<&str> {
    let (mut lines, mut within) = (Vec::new(), false);
    for line in header.lines() {
        let starts = line.starts_with("/*");
        if within || starts {
            let text = line.trim_start_matches("/*").trim_start_matches(" *");
            lines.push(text.trim_end_matches("*/").trim());
        }
        within = (within || starts) && !line.contains("*/");
    }
    lines.retain(|line| line.chars().any(|c| c != '-'));
    lines
}

/// The calls that the header declares.
fn calls(header: &str) -> Vec<&str> {
    let declared = header.lines().filter(|line| line.starts_with(|c: char| c.is_ascii_lowercase()));
    declared
        .filter_map(|line| {
            let from = &line[line.find("talc_")?..];
            from.split_once('(').map(|(name, _)| name)
        })
        .collect()
}

#[test]
fn of_the_library() {
    let header = read("include/talcfeather.h");
    let comments = comments(&header);
    let calls = calls(&header);
    assert!(comments.len() > 300 && calls.len() > 11);
    let name = comments[0].strip_prefix("Talcfeather: ").and_then(|line| line.strip_suffix('.'));
    for text in seen(&root(), "talcfeather") {
        let headings = ["NAME", "SYNOPSIS", "DESCRIPTION", "CALLS", "CONSTANTS", "SEE ALSO"];
        in_order(&text, &headings);
        has(&text, &format!("talcfeather - {}", name.expect("a name")));
        // A comment that became a heading has lost its full stop.
        comments[1..].iter().for_each(|line| has(&text, line.trim_end_matches('.')));
        let (synopsis, _) = section(&text, "SYNOPSIS").split_once("DESCRIPTION").unwrap();
        for call in &calls {
            has(synopsis, &format!("{call}("));
            let heads = |line: &str| line.split(", ").any(|name| name == format!("{call}()"));
            let heading = section(&text, "CALLS").lines().any(|line| heads(line.trim()));
            assert!(heading, "no heading for {call}()");
        }
    }
}

/// A constant from its name on, with its value and its whole note; of a macro, what it takes.
fn constant(defined: &str) -> String {
    let line = defined.lines().next().unwrap();
    if line.contains("/*") {
        return defined.split_once("*/").unwrap().0.replace("/*", "");
    }
    match line.split_once(')') {
        Some((takes, _)) if !takes.contains(' ') => format!("{takes})"),
        _ => line.into(),
    }
}

#[test]
fn constants() {
    let header = read("include/talcfeather.h");
    let defined = header.split("\n#define ").filter(|defined| defined.starts_with("TALC_"));
    let constants: Vec<String> = defined.map(constant).collect();
    assert!(constants.len() > 60);
    for text in seen(&root(), "talcfeather") {
        constants.iter().for_each(|constant| has(&text, constant));
    }
}

/// A tree with the pages' texts, and more behind each; removed at its end.
struct Tree(PathBuf);

impl Tree {
    fn new(name: &str, help: &str, header: &str) -> Tree {
        let name = format!("talc-{name}-{}", std::process::id());
        let tree = Tree(std::env::temp_dir().join(name));
        for folder in ["include", "rust/talc/src"] {
            fs::create_dir_all(tree.0.join(folder)).unwrap();
        }
        let copied = Command::new("cp").arg("-R").arg(root().join("tools")).arg(&tree.0).status();
        assert!(copied.expect("cp").success());
        let texts = [
            ("include/talcfeather.h", header),
            ("rust/talc/src/help.txt", help),
            ("rust/talc/Cargo.toml", ""),
        ];
        for (name, more) in texts {
            fs::write(tree.0.join(name), read(name) + more).unwrap();
        }
        tree
    }
}

impl Drop for Tree {
    fn drop(&mut self) {
        let _ = fs::remove_dir_all(&self.0);
    }
}

/// What roff would take for its own, wherever it may stand.
#[test]
fn odd_characters() {
    let help = r#"
  --odd F                 .a dot, 'a quote, \fB and \(aq; "2^32" ~ -1
                          .a dot, 'a quote
                          'a quote \
"#;
    let header = r#"
/*
 * .a dot, 'a quote, \fB and \(aq; "2^32" ~ -1
 * .a dot again.
 * 'a quote \
 *
 * A list, and another:
 *   .x  .a dot in it
 *       'a quote in it \
 *   'y  \fB in it
 *
 * .x  .a dot in it
 *     .a dot more
 *
 * Code:
 *     .if (x == '\0') "y" ^ ~z - 1;
 */
uint32_t talc_odd(void);

/* .a 'heading', "say" \fB: odd. */
#define TALC_ODD '\\'  /* .a dot, 'a quote \ */
"#;
    let tree = Tree::new("odd", help, header);
    for text in seen(&tree.0, "talc") {
        help.lines().for_each(|line| has(&text, line));
    }
    for text in seen(&tree.0, "talcfeather") {
        comments(header).iter().for_each(|line| has(&text, line.trim_end_matches('.')));
        has(&text, r"TALC_ODD '\\' .a dot, 'a quote \");
    }
}

/// A header that tools/man does not know how to read makes no page.
#[test]
fn what_is_not_known() {
    let lines = read("include/talcfeather.h").lines().count() + 1;
    for odd in ["// a comment\n", "typedef int talc;\n", "    int within;\n"] {
        let tree = Tree::new("unknown", "", odd);
        let said = page(&tree.0, "talcfeather").expect_err("no page");
        assert!(said.contains(&format!("line {lines}: ")), "{said}");
    }
}
