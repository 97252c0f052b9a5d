//! `talc replay` and `talc list --state` as processes: what is said, the exit status, and what is
//! left behind.

#[path = "../../tests/common/mod.rs"]
mod common;
mod process;

use common::elsewhere::built;
use common::traces::*;
use process::*;
use std::fs;
use std::os::unix::fs::{symlink, MetadataExt, PermissionsExt};
use std::path::{Path, PathBuf};
use std::process::Stdio;

/// The two logins of the safe.
const PRINTER: Uuid = [9; 16];

fn lathe() -> Uuid {
    UUID.try_into().unwrap()
}

/// 2026-11-02 08:00:00 UTC.
const MORNING: u32 = 1_793_606_400;

fn replay(state: &Path, traces: &[&Path]) -> Ended {
    let traces = traces.iter().map(|trace| path(trace));
    talc(&["replay", path(state)].into_iter().chain(traces).collect::<Vec<_>>(), b"")
}

fn listed(file: &Path, state: &Path) -> String {
    let arguments = ["list", path(file), "--state", path(state), "--passphrase-stdin"];
    let ended = talc(&arguments, PASSPHRASE);
    assert_eq!(ended.status, 0, "{}", ended.err);
    ended.out
}

/// Both logins cancelled; then one open again by a later reissue, one not by an earlier one.
fn two_traces() -> [Vec<u8>; 2] {
    let first = [record(&lathe(), MORNING, CANCEL), record(&PRINTER, MORNING + 60, CANCEL)];
    let second = [
        record(&lathe(), MORNING - 1, REISSUE),
        record(&lathe(), MORNING + 5, EDIT),
        record(&PRINTER, MORNING + 61, REISSUE),
    ];
    [first.concat(), second.concat()]
}

/// What the library itself makes of these traces.
fn state_of(traces: &[&[u8]]) -> Vec<u8> {
    let mut state = vec![0; 131_072];
    for trace in traces {
        talcfeather::replay(&mut state, trace).unwrap();
    }
    state
}

#[test]
fn made_and_told() {
    let folder = Folder::new("replay");
    let [first, second] = two_traces();
    let (a, b) = (folder.put("a.trace", &first), folder.put("b.trace", &second));
    let state = folder.0.join("floor.state");
    let ended = replay(&state, &[&a, &b]);
    assert_eq!((ended.status, ended.err.as_str()), (0, ""));
    let expected = [
        format!("{}: accepted; records: 2, changed: 2", a.display()),
        "  0123456789abcdef30313233343536ff  cancelled   2026-11-02 08:00:00 UTC".into(),
        "  09090909090909090909090909090909  cancelled   2026-11-02 08:01:00 UTC".into(),
        format!("{}: accepted; records: 3, changed: 1", b.display()),
        "  09090909090909090909090909090909  open again  2026-11-02 08:01:01 UTC".into(),
        format!("{}: made\n", state.display()),
    ];
    assert_eq!(ended.out, expected.join("\n"));
    assert!(fs::read(&state).unwrap() == state_of(&[&first, &second]));
    assert_eq!(fs::metadata(&state).unwrap().permissions().mode() & 0o777, 0o600);
    assert_eq!(folder.names(), ["a.trace", "b.trace", "floor.state"]);
}

/// A login that one trace cancels and opens again has not changed; nor has any, the second time.
#[test]
fn nothing_changed() {
    let folder = Folder::new("replay-same");
    let both = [record(&PRINTER, 5, CANCEL), record(&PRINTER, 6, REISSUE)].concat();
    let a = folder.put("a.trace", &both);
    let state = folder.0.join("floor.state");
    for done in ["made", "unchanged", "unchanged"] {
        let before = fs::metadata(&state).map(|found| found.ino()).ok();
        let ended = replay(&state, &[&a, &a]);
        let line = format!("{}: accepted; records: 2, changed: 0\n", a.display());
        let expected = [&line, &line, &format!("{}: {done}\n", state.display())[..]].concat();
        assert_eq!((ended.status, ended.out), (0, expected), "{}", ended.err);
        let after = fs::metadata(&state).unwrap().ino();
        assert!(before.is_none_or(|before| before == after), "not written again");
    }
    assert!(fs::read(&state).unwrap() == state_of(&[&both]));
}

#[test]
fn the_list_by_a_state() {
    let folder = Folder::new("list-state");
    let file = folder.put("a.psafe3", &safe());
    let [first, second] = two_traces();
    let lines = |lathe: &str, printer: &str| {
        let title = "Drehbank\\t3\\u{1b}[2J \\\\t ä\tworker\tFloor.Lathes\t2030-03-17";
        format!("{title}\t{lathe}\nPrinter\t\t\t\t{printer}\n")
    };
    let cases = [
        (state_of(&[]), lines("", "")),
        (state_of(&[&first]), lines("cancelled", "cancelled")),
        (state_of(&[&first, &second]), lines("cancelled", "")),
        (state_of(&[&second]), lines("", "")),
        (state_of(&[&record(&counted(1), 5, CANCEL)]), lines("", "")),
    ];
    for (bytes, expected) in cases {
        let state = folder.put("floor.state", &bytes);
        assert_eq!(listed(&file, &state), expected);
        assert!(fs::read(&state).unwrap() == bytes);
    }
    // Without one, the four columns of before.
    let ended = talc(&["list", path(&file), "--passphrase-stdin"], PASSPHRASE);
    assert!(ended.out.lines().all(|line| line.split('\t').count() == 4));
}

/// Two traces in either order, in one run or in two: the same list.
#[test]
fn swapped() {
    let folder = Folder::new("replay-swapped");
    let file = folder.put("a.psafe3", &safe());
    let [first, second] = two_traces();
    let (a, b) = (folder.put("a.trace", &first), folder.put("b.trace", &second));
    let mut lists = Vec::new();
    for (i, order) in [[&a, &b], [&b, &a]].into_iter().enumerate() {
        let (once, twice) = (folder.0.join(format!("{i}1")), folder.0.join(format!("{i}2")));
        assert_eq!(replay(&once, &[order[0], order[1]]).status, 0);
        for trace in order {
            assert_eq!(replay(&twice, &[trace]).status, 0);
        }
        lists.extend([listed(&file, &once), listed(&file, &twice)]);
    }
    assert!(lists[0].contains("\tcancelled\n") && lists[0].contains("Printer\t\t\t\t\n"));
    assert!(lists.iter().all(|list| *list == lists[0]), "{lists:?}");
}

/// Traces at fault, each with the words for it where the state has both logins already.
fn faulty() -> Vec<(Vec<u8>, &'static str)> {
    let good = record(&PRINTER, 7, CANCEL);
    let with = |byte: usize, value: u8| {
        let mut trace = good.repeat(3);
        trace[32 * 2 + byte] = value;
        trace
    };
    let many: Vec<u8> = (0..4097).flat_map(|i| record(&counted(i), 1, EDIT)).collect();
    vec![
        ([&good[..], &[0]].concat(), "record 1, at byte 32: it is cut: 1 of 32 bytes"),
        (good[..31].to_vec(), "record 0, at byte 0: it is cut: 31 of 32 bytes"),
        (with(20, 0), "record 2, at byte 64: unknown kind 0"),
        (with(20, 255), "record 2, at byte 64: unknown kind 255"),
        (with(21, 1), "record 2, at byte 64: its pad is not zero"),
        (with(31, 1), "record 2, at byte 64: its pad is not zero"),
        (many, "record 4094, at byte 131008: one login more than 4096"),
    ]
}

/// A refused trace is told, changes nothing, and does not keep the others out.
#[test]
fn refused_among_others() {
    let folder = Folder::new("replay-refused");
    let [first, second] = two_traces();
    let (a, b) = (folder.put("a.trace", &first), folder.put("b.trace", &second));
    for (bytes, words) in faulty() {
        let bad = folder.put("bad.trace", &bytes);
        let state = folder.put("floor.state", &state_of(&[&record(&lathe(), 3, CANCEL)]));
        let ended = replay(&state, &[&a, &bad, &b]);
        assert_eq!(ended.status, 16, "{}", ended.err);
        assert!(ended.err.contains("refused, 16: 1 of 3 traces"), "{}", ended.err);
        let line = format!("{}: refused, 16: {words}\n", bad.display());
        assert!(ended.out.contains(&line), "{}", ended.out);
        assert_eq!(ended.out.matches("accepted; ").count(), 2);
        let expected = state_of(&[&record(&lathe(), 3, CANCEL), &first, &second]);
        assert!(fs::read(&state).unwrap() == expected);
    }
}

/// Alone, a refused trace leaves the file itself; a state that is not there is made, fresh.
#[test]
fn refused_alone() {
    let folder = Folder::new("replay-alone");
    let held = state_of(&[&two_traces()[0]]);
    let state = folder.put("floor.state", &held);
    let before = fs::metadata(&state).unwrap();
    for (bytes, words) in faulty() {
        let bad = folder.put("bad.trace", &bytes);
        let ended = replay(&state, &[&bad]);
        let expected = [
            format!("{}: refused, 16: {words}\n", bad.display()),
            format!("{}: unchanged\n", state.display()),
        ];
        assert_eq!((ended.status, ended.out), (16, expected.concat()), "{}", ended.err);
        let after = fs::metadata(&state).unwrap();
        assert_eq!((after.ino(), after.mode()), (before.ino(), before.mode()));
        assert!(fs::read(&state).unwrap() == held);
    }
    let fresh = folder.0.join("fresh.state");
    let bad = folder.put("bad.trace", &[1; 33]);
    let ended = replay(&fresh, &[&bad]);
    assert_eq!(ended.status, 16);
    assert!(fs::read(&fresh).unwrap() == vec![0; 131_072]);
}

/// Half-copied and damaged state files are 19, at once, and stay as they are.
#[test]
fn no_state() {
    let folder = Folder::new("no-state");
    let safe = folder.put("a.psafe3", &safe());
    let trace = folder.put("a.trace", &two_traces()[0]);
    let whole = state_of(&[&two_traces()[0]]);
    let mut damaged = whole.clone();
    *damaged.iter_mut().rfind(|byte| **byte != 0).unwrap() ^= 0x40;
    let cases = [
        (Vec::new(), "it has 0 of 131072 bytes"),
        (whole[..1].to_vec(), "it has 1 of 131072 bytes"),
        (whole[..65_536].to_vec(), "it has 65536 of 131072 bytes"),
        (whole[..131_071].to_vec(), "it has 131071 of 131072 bytes"),
        ([&whole[..], &[0]].concat(), "it has more than 131072 bytes"),
        (whole.repeat(2), "it has more than 131072 bytes"),
        (damaged, "its bytes are damaged"),
    ];
    for (bytes, words) in cases {
        let state = folder.put("floor.state", &bytes);
        // Without a terminal, asking for a passphrase would be 64.
        let by_list = talc(&["list", path(&safe), "--state", path(&state)], b"");
        for ended in [replay(&state, &[&trace]), by_list] {
            assert_eq!((ended.status, ended.out.as_str()), (19, ""), "{}", ended.err);
            let expected = format!("{}: refused, 19: this is no state: {words}", state.display());
            assert!(ended.err.contains(&expected), "{}", ended.err);
        }
        assert!(fs::read(&state).unwrap() == bytes);
        assert_eq!(folder.names(), ["a.psafe3", "a.trace", "floor.state"]);
    }
}

/// What can't be read ends the run before anything is done.
#[test]
fn missing_files() {
    let folder = Folder::new("replay-missing");
    let safe = folder.put("a.psafe3", &safe());
    let trace = folder.put("a.trace", &two_traces()[0]);
    let (state, missing) = (folder.0.join("floor.state"), folder.0.join("missing"));
    let held = state_of(&[]);
    for there in [false, true] {
        if there {
            fs::write(&state, &held).unwrap();
        }
        for unreadable in [&missing, &folder.0] {
            let ended = replay(&state, &[&trace, unreadable]);
            assert_eq!((ended.status, ended.out.as_str()), (66, ""), "{}", ended.err);
            assert!(ended.err.contains(path(unreadable)), "{}", ended.err);
            assert_eq!(state.exists(), there);
        }
    }
    assert!(fs::read(&state).unwrap() == held);
    for unreadable in [&missing, &folder.0] {
        let ended = talc(&["list", path(&safe), "--state", path(unreadable)], b"");
        assert_eq!((ended.status, ended.out.as_str()), (66, ""), "{}", ended.err);
    }
}

/// A folder, a link and a device keep their places.
#[test]
fn no_regular_file() {
    let folder = Folder::new("replay-place");
    let trace = folder.put("a.trace", &two_traces()[0]);
    let held = state_of(&[]);
    let target = folder.put("target.state", &held);
    let (link, taken) = (folder.0.join("link"), folder.0.join("taken"));
    symlink(&target, &link).unwrap();
    fs::create_dir(&taken).unwrap();
    for state in [&link, &taken, &PathBuf::from("/dev/null")] {
        let ended = replay(state, &[&trace]);
        assert_eq!((ended.status, ended.out.as_str()), (73, ""), "{}", ended.err);
        assert!(ended.err.contains("no regular file"), "{}", ended.err);
    }
    assert!(fs::symlink_metadata(&link).unwrap().is_symlink());
    assert!(fs::read(&target).unwrap() == held);
    let nowhere = folder.0.join("no/such/state");
    assert_eq!(replay(&nowhere, &[&trace]).status, 73);
    assert_eq!(folder.names(), ["a.trace", "link", "taken", "target.state"]);
    assert_eq!(fs::read_dir(&taken).unwrap().count(), 0);
}

/// A state that can be written only in part is not written at all.
#[test]
fn written_in_part() {
    let folder = Folder::new("replay-part");
    let held = state_of(&[&record(&lathe(), 3, CANCEL)]);
    let trace = folder.put("a.trace", &two_traces()[0]);
    let state = folder.put("floor.state", &held);
    let output = talc_writing_at_most(65_536, &["replay", path(&state), path(&trace)]);
    assert_eq!((output.status.code(), output.stdout), (Some(73), Vec::new()));
    assert!(fs::read(&state).unwrap() == held);
    assert_eq!(folder.names(), ["a.trace", "floor.state"]);
}

/// The state is kept before anything is said.
#[test]
fn nobody_listens() {
    let folder = Folder::new("replay-full");
    let trace = folder.put("a.trace", &two_traces()[0]);
    let state = folder.0.join("floor.state");
    let full = fs::OpenOptions::new().write(true).open("/dev/full").unwrap();
    let mut command = built(env!("CARGO_BIN_EXE_talc"));
    command.args(["replay", path(&state), path(&trace)]);
    let output = command.stdout(full).stderr(Stdio::piped()).output().unwrap();
    assert_eq!(output.status.code(), Some(74));
    assert!(fs::read(&state).unwrap() == state_of(&[&two_traces()[0]]));
}

/// The traces in examples/ are as their makers say, and cancel what the README shows.
#[test]
fn the_examples() {
    let examples = Path::new(env!("CARGO_MANIFEST_DIR")).join("../../examples");
    let lathe = 0x62fc060b9dcfdd26844f36c7e392975f_u128.to_be_bytes();
    let printer = 0x455aff5673fabadf706c213588743bc8_u128.to_be_bytes();
    let first = [record(&lathe, MORNING, CANCEL), record(&printer, 1_793_611_800, CANCEL)];
    let second = [
        record(&lathe, 1_793_378_700, REISSUE),
        record(&lathe, 1_793_701_200, EDIT),
        record(&printer, 1_793_776_500, REISSUE),
    ];
    let (a, b) = (examples.join("tablet-1.trace"), examples.join("tablet-2.trace"));
    assert_eq!(fs::read(&a).unwrap(), first.concat());
    assert_eq!(fs::read(&b).unwrap(), second.concat());
    let folder = Folder::new("replay-examples");
    let state = folder.0.join("floor.state");
    assert_eq!(replay(&state, &[&a, &b]).status, 0);
    let safe = examples.join("floor.psafe3");
    let passphrase = examples.join("floor.passphrase");
    let options = ["--state", path(&state), "--passphrase-file", path(&passphrase)];
    let ended = talc(&[&["list", path(&safe)][..], &options].concat(), b"");
    let cancelled: Vec<&str> =
        ended.out.lines().filter(|line| line.ends_with("\tcancelled")).collect();
    assert_eq!(cancelled, ["Lathe 3\tworker\tFloor 2.Lathes\t2028-01-01\tcancelled"]);
    assert_eq!(ended.out.lines().count(), 4);
}
