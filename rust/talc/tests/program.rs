//! `talc` as a process: each command, each exit status, and what it leaves behind.

#[path = "../../tests/common/mod.rs"]
mod common;
mod process;

use common::bodies::{data, join, part};
use common::elsewhere::built;
use peer::fields::END;
use peer::random::Random;
use process::*;
use std::fs;
use std::os::unix::fs::PermissionsExt;
use std::path::Path;
use std::process::Stdio;

#[test]
fn check() {
    let folder = Folder::new("check");
    let file = folder.put("a.psafe3", &safe());
    let ended = talc(&["check", path(&file), "--passphrase-stdin"], PASSPHRASE);
    assert_eq!(ended.status, 0, "{}", ended.err);
    let blocks = 4 + body().len() / 16;
    let counts = format!("header fields: 1, records: 2, compressions: 2050, blocks: {blocks}");
    assert_eq!(ended.out, format!("{}: accepted; {counts}\n", file.display()));
}

#[test]
fn list_shows_no_password_and_steers_no_terminal() {
    let folder = Folder::new("list");
    let file = folder.put("a.psafe3", &safe());
    let ended = talc(&["list", path(&file), "--passphrase-stdin"], PASSPHRASE);
    assert_eq!(ended.status, 0, "{}", ended.err);
    let lines = "Drehbank\\t3\\u{1b}[2J \\\\t ä\tworker\tFloor.Lathes\t2030-03-17\nPrinter\t\t\t\n";
    assert_eq!(ended.out, lines);
}

#[test]
fn fields_hides_passwords() {
    let folder = Folder::new("fields");
    let file = folder.put("a.psafe3", &safe());
    let ended = talc(&["--passphrase-stdin", "fields", path(&file)], PASSPHRASE);
    assert_eq!(ended.status, 0, "{}", ended.err);
    assert!(!ended.out.contains("password itself") && !ended.out.contains("old password"));
    assert!(!ended.out.contains("another") && !ended.out.contains("two factor key"));
    assert_eq!(ended.out.matches("(hidden)").count(), 4);
    let titles: Vec<&str> = ended.out.lines().filter(|line| !line.starts_with(' ')).collect();
    assert_eq!(titles, ["header", "record 0", "record 1"]);
    assert_eq!(ended.out.lines().count(), 15 + 3);
    assert!(ended.out.contains("Number     782"));
    assert!(ended.out.contains("Time       2030-03-17 17:46:40 UTC"));
}

/// The times of the header: four bytes, eight hex digits, and eight bytes that are not all digits.
#[test]
fn fields_shows_old_stamps() {
    let folder = Folder::new("stamps");
    let stamps: [(&[u8], &str); 5] = [
        (&1_247_505_533u32.to_le_bytes(), "4  Time       2009-07-13 17:18:53 UTC"),
        (b"4A5B6C7D", "8  Time       2009-07-13 17:18:53 UTC"),
        (b"4a5b6c7d", "8  Time       2009-07-13 17:18:53 UTC"),
        (b"ffffFFFF", "8  Time       2106-02-07 06:28:15 UTC"),
        (b"4A5B6C7G", "8  Misshapen"),
    ];
    for (stamp, shown) in stamps {
        let header = [part(0x00, &[0x0e, 0x03]), part(0x04, stamp), part(0x13, stamp)];
        let body = join(&mut Random(1), &[&header[..], &[part(END, &[])]].concat());
        let file = folder.put("a.psafe3", &safe_around(&body, 2048));
        let ended = talc(&["fields", path(&file), "--passphrase-stdin"], PASSPHRASE);
        assert_eq!(ended.status, 0, "{}", ended.err);
        let lines: Vec<&str> = ended.out.lines().collect();
        let saved = format!("      16  04  Timestamp of last save             {shown}");
        let changed = format!("      32  13  Last master password change        {shown}");
        assert_eq!(lines[2..4], [saved, changed]);
    }
}

/// Eight hex digits are no time in a record.
#[test]
fn expiries_of_digits_are_no_times() {
    let folder = Folder::new("digits");
    let login = [part(0x01, UUID), part(0x03, b"Lathe"), part(0x06, b"x"), part(0x0a, b"4A5B6C7D")];
    let [version, end] = [part(0x00, &[0x0e, 0x03]), part(END, &[])];
    let parts = [&[version, end.clone()][..], &login, &[end]].concat();
    let file = folder.put("a.psafe3", &safe_around(&join(&mut Random(1), &parts), 2048));
    let show = |command| talc(&[command, path(&file), "--passphrase-stdin"], PASSPHRASE);
    let (list, fields) = (show("list"), show("fields"));
    assert_eq!((list.status, list.out.as_str()), (0, "Lathe\t\t\t?\n"), "{}", list.err);
    assert_eq!(fields.status, 0, "{}", fields.err);
    assert!(fields.out.contains("Password Expiry Time               8  Misshapen\n"));
    assert!(!fields.out.contains("UTC"), "{}", fields.out);
}

#[test]
fn find() {
    let folder = Folder::new("find");
    let file = folder.put("a.psafe3", &safe());
    for uuid in ["09090909090909090909090909090909", "09090909-0909-0909-0909-090909090909"] {
        let ended = talc(&["find", path(&file), uuid, "--passphrase-stdin"], PASSPHRASE);
        assert_eq!(ended.status, 0, "{}", ended.err);
        assert!(ended.out.starts_with("record 1\n") && ended.out.contains("Printer"));
        assert_eq!(ended.out.lines().count(), 5);
        assert!(!ended.out.contains("another"));
    }
    let uuid = "0123456789ABCDEF30313233343536FF";
    let ended = talc(&["find", path(&file), uuid, "--passphrase-stdin"], PASSPHRASE);
    assert!(ended.out.starts_with("record 0\n"), "{}", ended.err);
    let none = "00000000000000000000000000000000";
    let ended = talc(&["find", path(&file), none, "--passphrase-stdin"], PASSPHRASE);
    assert_eq!((ended.status, ended.out.as_str()), (67, ""));
}

#[test]
fn resave() {
    let folder = Folder::new("resave");
    let file = folder.put("a.psafe3", &safe());
    let out = folder.put("b.psafe3", b"what was there before");
    for out in [&out, &file, &folder.0.join("c.psafe3")] {
        let ended = talc(&["resave", path(&file), path(out), "--passphrase-stdin"], PASSPHRASE);
        assert_eq!(ended.status, 0, "{}", ended.err);
        assert!(ended.out.contains("the same byte for byte"), "{}", ended.out);
        assert!(fs::read(out).unwrap() == safe());
        assert_eq!(fs::metadata(out).unwrap().permissions().mode() & 0o777, 0o600);
    }
    assert_eq!(folder.names(), ["a.psafe3", "b.psafe3", "c.psafe3"]);
}

#[test]
fn resave_that_fails_leaves_nothing() {
    let folder = Folder::new("resave-fails");
    let file = folder.put("a.psafe3", &safe());
    let taken = folder.0.join("folder");
    fs::create_dir(&taken).unwrap();
    fs::write(taken.join("x"), b"").unwrap();
    let nowhere = folder.0.join("no/such/folder");
    for out in [&taken, &nowhere, &folder.0.join("..")] {
        let ended = talc(&["resave", path(&file), path(out), "--passphrase-stdin"], PASSPHRASE);
        assert_eq!((ended.status, ended.out.as_str()), (73, ""), "{}", ended.err);
    }
    let out = folder.0.join("b.psafe3");
    let ended = talc(&["resave", path(&file), path(&out), "--passphrase-stdin"], b"wrong");
    assert_eq!(ended.status, 8);
    assert_eq!(folder.names(), ["a.psafe3", "folder"]);
}

#[test]
fn passphrases() {
    let folder = Folder::new("passphrases");
    let file = folder.put("a.psafe3", &safe());
    let status = |passphrase: &[u8]| {
        let stored = folder.put("passphrase", passphrase);
        let by_file = talc(&["check", path(&file), "--passphrase-file", path(&stored)], b"");
        let by_stdin = talc(&["check", path(&file), "--passphrase-stdin"], passphrase);
        assert_eq!(by_file.status, by_stdin.status);
        let joined = format!("--passphrase-file={}", path(&stored));
        assert_eq!(talc(&[&joined, "check", path(&file)], b"").status, by_stdin.status);
        by_file.status
    };
    assert_eq!(status(b"floor 2"), 0);
    assert_eq!(status(b"floor 2\n"), 0);
    assert_eq!(status(b"floor 2\n\n"), 8);
    assert_eq!(status(b"floor 2\r\n"), 8);
    assert_eq!(status(b" floor 2"), 8);
    assert_eq!(status(b""), 8);
    assert_eq!(status(&[b'x'; 1024]), 8);
    assert_eq!(status(&[&[b'x'; 1024][..], b"\n"].concat()), 8);
    assert_eq!(status(&[b'x'; 1025]), 2);
    assert_eq!(status(&[b'x'; 100_000]), 2);
}

/// Every refusal of a reading, with its number as the status and in words.
#[test]
fn refusals() {
    let folder = Folder::new("refusals");
    let safe = safe();
    let with = |offset: usize, bytes: &[u8]| {
        let mut file = safe.clone();
        file[offset..offset + bytes.len()].copy_from_slice(bytes);
        file
    };
    let cases: [(Vec<u8>, i32, &str); 12] = [
        (Vec::new(), 1, "cut or is no safe"),
        (safe[..100].to_vec(), 1, "cut or is no safe"),
        (vec![0; 4_194_304], 1, "cut or is no safe"),
        (vec![0; 5_000_000], 1, "cut or is no safe"),
        (with(0, b"PWS4"), 4, "choose a .psafe3 file"),
        (with(36, &[0; 4]), 5, "save it with a current program"),
        (with(36, &[0xff; 4]), 6, "raise --ceiling"),
        (safe[..safe.len() - 16].to_vec(), 7, "copy it again"),
        (with(152, b"PWS3-EOFPWS3-EOF"), 7, "copy it again"),
        (with(40, &[0; 32]), 8, "type it again"),
        (with(safe.len() - 1, &[0, 0][..1]), 9, "if it stays, give every entry"),
        (with(160, &[0]), 9, "damaged"),
    ];
    for (bytes, number, words) in cases {
        let file = folder.put("a.psafe3", &bytes);
        for command in ["check", "list", "fields"] {
            let ended = talc(&[command, path(&file), "--passphrase-stdin"], PASSPHRASE);
            assert_eq!((ended.status, ended.out.as_str()), (number, ""), "{}", ended.err);
            assert!(ended.err.contains(words), "{}", ended.err);
            assert!(ended.err.contains(&format!("refused, {number}: ")), "{}", ended.err);
        }
    }
}

/// Two records with one UUID: every command refuses the safe, says what can be done, and writes
/// nothing.
#[test]
fn one_uuid_twice() {
    let folder = Folder::new("twice");
    let (body, uuid) = (body(), "09090909090909090909090909090909");
    let last = body.len() - 16 - 32 - 16 - 32;
    assert_eq!(&body[last..last + 5], b"\x10\0\0\0\x06");
    let twice = [&body[..], &body[last..]].concat();
    let file = folder.put("a.psafe3", &safe_around(&twice, 2048));
    let out = folder.0.join("out");
    let commands: [&[&str]; 6] = [
        &["check", path(&file)],
        &["list", path(&file)],
        &["fields", path(&file)],
        &["find", path(&file), uuid],
        &["table", path(&file), path(&out)],
        &["resave", path(&file), path(&out)],
    ];
    for command in commands {
        let ended = talc(&[command, &["--passphrase-stdin"]].concat(), PASSPHRASE);
        assert_eq!((ended.status, ended.out.as_str()), (9, ""), "{command:?}");
        assert!(ended.err.contains("remove one that is there twice"), "{}", ended.err);
    }
    assert_eq!(folder.names(), ["a.psafe3"]);
    let once = folder.put("a.psafe3", &safe_around(&body, 2048));
    assert_eq!(talc(&["find", path(&once), uuid, "--passphrase-stdin"], PASSPHRASE).status, 0);
}

/// Every type in header and record, with data of any shape: all shown, nothing stumbles.
#[test]
fn any_fields() {
    let folder = Folder::new("any");
    for seed in 0..20 {
        let random = &mut Random(seed);
        let mut fields = vec![part(0x00, &[0x0e, 0x03])];
        fields.extend((0x01..END).map(|kind| part(kind, &data(random))));
        fields.push(part(END, &[]));
        fields.extend([part(0x01, UUID), part(0x03, &[0xff]), part(0x06, &[0x1b])]);
        let rest = (0x00..END).filter(|kind| ![0x01, 0x03, 0x06].contains(kind));
        fields.extend(rest.map(|kind| part(kind, &data(random))));
        fields.push(part(END, &[]));
        let file = folder.put("a.psafe3", &safe_around(&join(random, &fields), 2048));
        let show = |arguments: &[&str]| {
            let ended = talc(&[arguments, &["--passphrase-stdin"]].concat(), PASSPHRASE);
            assert_eq!(ended.status, 0, "{}", ended.err);
            assert!(ended.out.chars().all(|c| !c.is_control() || "\t\n".contains(c)));
            ended.out.lines().count()
        };
        assert_eq!(show(&["list", path(&file)]), 1);
        assert_eq!(show(&["fields", path(&file)]), 2 + 256 + 256);
        assert_eq!(show(&["find", path(&file), "0123456789abcdef30313233343536ff"]), 1 + 256);
    }
}

#[test]
fn ceilings() {
    let folder = Folder::new("ceilings");
    let file = folder.put("a.psafe3", &safe());
    for (ceiling, status) in [("2047", 6), ("2048", 0), ("4294967295", 0), ("0", 6)] {
        let arguments = ["check", path(&file), "--passphrase-stdin", "--ceiling", ceiling];
        assert_eq!(talc(&arguments, PASSPHRASE).status, status);
        let joined = format!("--ceiling={ceiling}");
        let arguments = ["check", path(&file), &joined, "--passphrase-stdin"];
        assert_eq!(talc(&arguments, PASSPHRASE).status, status);
    }
}

#[test]
fn a_line_while_it_takes_long() {
    let folder = Folder::new("long");
    let body = join(&mut Random(1), &[part(0x00, &[0x0e, 0x03]), part(END, &[])]);
    let mut file = safe_around(&body, 2048);
    // Another ITER makes another passphrase of it, after all the work.
    file[36..40].copy_from_slice(&12_000_000u32.to_le_bytes());
    let file = folder.put("a.psafe3", &file);
    let ended = talc(&["check", path(&file), "--passphrase-stdin"], PASSPHRASE);
    assert_eq!(ended.status, 8);
    assert!(ended.err.contains("12000000 rounds: takes more than a second"), "{}", ended.err);
}

#[test]
fn files_that_cannot_be_read() {
    let folder = Folder::new("unreadable");
    let file = folder.put("a.psafe3", &safe());
    let missing = folder.0.join("missing");
    for unreadable in [&missing, &folder.0] {
        let ended = talc(&["check", path(unreadable), "--passphrase-stdin"], PASSPHRASE);
        assert_eq!((ended.status, ended.out.as_str()), (66, ""), "{}", ended.err);
        assert!(ended.err.contains(path(unreadable)));
        let arguments = ["check", path(&file), "--passphrase-file", path(unreadable)];
        assert_eq!(talc(&arguments, b"").status, 66);
    }
    assert_eq!(folder.names(), ["a.psafe3"]);
}

#[test]
fn wrong_arguments() {
    let uuids = ["", "12", "0909090909090909090909090909090", "zz090909090909090909090909090909"];
    let mut cases: Vec<Vec<&str>> = vec![
        vec![],
        vec!["open", "f"],
        vec!["check"],
        vec!["check", "f", "g"],
        vec!["list"],
        vec!["find", "f"],
        vec!["resave", "f"],
        vec!["resave", "f", "g", "h"],
        vec!["replay"],
        vec!["replay", "s"],
        vec!["replay", "s", "t", "--passphrase-stdin"],
        vec!["replay", "s", "t", "--passphrase-file", "g"],
        vec!["replay", "s", "t", "--ceiling", "5000"],
        vec!["replay", "s", "t", "--state", "s"],
        vec!["check", "f", "--state", "s"],
        vec!["fields", "f", "--state=s"],
        vec!["list", "f", "--state"],
        vec!["check", "f", "--loud"],
        vec!["check", "f", "--ceiling"],
        vec!["check", "f", "--ceiling", "many"],
        vec!["check", "f", "--ceiling="],
        vec!["check", "f", "--ceiling=-1"],
        vec!["check", "f", "--passphrase-stdin=yes"],
        vec!["check", "f", "--help=yes"],
        vec!["check", "f", "--ceilings=5"],
        vec!["check", "f", "--ceiling", "4294967296"],
        vec!["check", "f", "--ceiling", "-1"],
        vec!["check", "f", "--passphrase-file"],
        vec!["check", "f", "--passphrase-file", "g", "--passphrase-stdin"],
    ];
    cases.extend(uuids.map(|uuid| vec!["find", "f", uuid]));
    for arguments in cases {
        let ended = talc(&arguments, b"");
        assert_eq!((ended.status, ended.out.as_str()), (64, ""), "{arguments:?}");
        assert!(ended.err.contains("--help"), "{}", ended.err);
    }
}

#[test]
fn no_terminal_to_ask() {
    let folder = Folder::new("no-terminal");
    let file = folder.put("a.psafe3", &safe());
    let ended = talc(&["check", path(&file)], PASSPHRASE);
    assert_eq!(ended.status, 64);
    assert!(ended.err.contains("no terminal"), "{}", ended.err);
}

/// What no passphrase opens is refused before one is asked for.
#[test]
fn refused_unasked() {
    let folder = Folder::new("unasked");
    let (mut tag, mut iter) = (safe(), safe());
    tag[3] = b'4';
    iter[36..40].copy_from_slice(&2047u32.to_le_bytes());
    let cases = [(b"no safe".to_vec(), 1), (safe()[1..].to_vec(), 1), (tag, 4), (iter, 5)];
    for (bytes, number) in cases {
        let file = folder.put("a.psafe3", &bytes);
        for command in ["check", "list", "fields"] {
            // Without a terminal, asking would be 64.
            let ended = talc(&[command, path(&file)], b"");
            assert_eq!((ended.status, ended.out.as_str()), (number, ""), "{}", ended.err);
            assert!(ended.err.contains(&format!("refused, {number}: ")), "{}", ended.err);
        }
    }
}

/// So is what is over the ceiling, or not whole; 6 comes before 7.
#[test]
fn refused_unasked_too() {
    let folder = Folder::new("unasked-too");
    let (mut long, mut cut, mut marker) = (safe(), safe(), safe());
    long[36..40].copy_from_slice(&16_777_217u32.to_le_bytes());
    cut.truncate(cut.len() - 16);
    let place = marker.len() - 33;
    marker[place] ^= 0x80;
    let both = [&long[..], &[0; 16]].concat();
    let more = [safe(), vec![0; 16]].concat();
    for (bytes, number) in [(long, 6), (both, 6), (cut, 7), (marker, 7), (more, 7)] {
        let file = folder.put("a.psafe3", &bytes);
        for command in ["check", "list", "fields"] {
            let ended = talc(&[command, path(&file)], b"");
            assert_eq!((ended.status, ended.out.as_str()), (number, ""), "{}", ended.err);
            assert!(ended.err.contains(&format!("refused, {number}: ")), "{}", ended.err);
        }
    }
}

#[test]
fn help_and_version() {
    for arguments in [vec!["--help"], vec!["-h"], vec!["check", "--help"]] {
        let ended = talc(&arguments, b"");
        assert_eq!(ended.status, 0);
        assert!(ended.out.contains("talc resave FILE OUT") && ended.out.contains("--ceiling N"));
        assert!(
            ended.out.contains("talc replay STATE TRACE..") && ended.out.contains("--state STATE")
        );
        assert!(ended.out.contains("talc table FILE OUT") && ended.out.contains("--now SECONDS"));
        assert!(ended.out.contains("talc rows TABLE"));
        assert!(ended.out.lines().all(|line| line.len() <= 80), "fits a terminal");
    }
    assert!(talc(&["--version"], b"").out.starts_with("talc "));
}

#[test]
fn a_name_like_an_option() {
    let ended = talc(&["check", "--passphrase-stdin", "--", "--help"], PASSPHRASE);
    assert_eq!(ended.status, 66);
}

/// Output that nobody reads, or that can't be written.
#[test]
fn output_that_goes_nowhere() {
    let folder = Folder::new("nowhere");
    let file = folder.put("a.psafe3", &safe());
    let stored = folder.put("passphrase", PASSPHRASE);
    let full = fs::OpenOptions::new().write(true).open("/dev/full").unwrap();
    let mut command = built(env!("CARGO_BIN_EXE_talc"));
    command.args(["fields", path(&file), "--passphrase-file", path(&stored)]);
    let output = command.stdout(full).stderr(Stdio::piped()).output().unwrap();
    assert_eq!(output.status.code(), Some(74));
    let (reader, writer) = std::io::pipe().unwrap();
    drop(reader);
    let output = command.stdout(writer).stderr(Stdio::piped()).output().unwrap();
    assert_eq!((output.status.code(), output.stderr), (Some(0), Vec::new()));
}

mod terminal {
    use super::*;
    use process::terminal::Terminal;

    /// Types these keys at talc's terminal; its status, and all that the terminal showed.
    fn typed(file: &Path, keys: &[u8]) -> (i32, String) {
        let mut terminal = Terminal::talc(&["list", path(file)]);
        terminal.shows("Passphrase: ");
        assert!(!terminal.is_as_before(), "nothing typed is shown");
        terminal.types(keys);
        let (status, _, shown) = terminal.ends();
        (status.expect("no signal"), shown)
    }

    #[test]
    fn asks_and_shows_nothing_typed() {
        let folder = Folder::new("terminal");
        let file = folder.put("a.psafe3", &safe());
        let (status, shown) = typed(&file, b"floor 2\n");
        assert_eq!(status, 0, "{shown}");
        assert!(shown.starts_with("Passphrase: ") && shown.contains("Printer"), "{shown}");
        assert!(!shown.contains("floor 2"), "{shown}");
        assert!(shown.contains("  worker  Floor.Lathes  2030-03-17"), "{shown}");
        assert_eq!(typed(&file, b"floor 3\n").0, 8);
        assert_eq!(typed(&file, b"flo\x7f\x15floor 3\x7f2\n").0, 0, "rubbed out");
    }

    /// Interrupt, quit and end of file at once, in the midst of a line too; suspend at its end.
    #[test]
    fn gives_up() {
        let folder = Folder::new("gives-up");
        let file = folder.put("a.psafe3", &safe());
        let keys: [&[u8]; 7] =
            [b"\x03", b"flo\x03", b"\x1c", b"flo\x1c", b"\x04", b"flo\x04", b"flo\x1aor 2\n"];
        for keys in keys {
            let shown = "Passphrase: \r\ntalc: given up\r\n".to_string();
            assert_eq!(typed(&file, keys), (77, shown), "{keys:?}");
        }
    }
}
