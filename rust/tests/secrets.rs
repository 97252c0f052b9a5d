//! What reading and writing leave on the stack: in each outcome, secrets are looked for on a painted
//! stack, after the call alone and after the stack below it has been cleared.

mod common;

use common::bodies::{end, join, part, version};
use common::compiled::{compiled, languages, run};
use common::header;
use common::painted::painted;
use peer::body::covered;
use peer::hmac::hmac;
use peer::random::Random;
use peer::safe::{assemble, Parts, MARKER};
use peer::stretch::stretch;
use peer::twofish::{subkeys, Twofish};
use std::collections::HashSet;
use std::fs;
use std::path::{Path, PathBuf};
use talcfeather::raw;

const CEILING: u32 = 2048;

/// The header's.
const TALC_STACK: usize = 65_536;
const TALC_CLEAR_STACK: usize = 66_048;

/// A case of either call: what it is lent, the number that it answers, and whether it comes as far as
/// to have secrets at hand.
struct Case {
    number: u32,
    file: Vec<u8>,
    parts: Parts,
    body: Vec<u8>,
    ceiling: u32,
    room: usize,
    stretches: bool,
}

fn body(random: &mut Random) -> Vec<u8> {
    let record =
        [part(0x01, &random.bytes(16)), part(0x03, b"Lathe"), part(0x06, &random.bytes(40))];
    join(random, &[&[version(), end()], &record[..], &[end()]].concat())
}

fn case(random: &mut Random) -> Case {
    let parts = Parts {
        passphrase: random.bytes(40),
        salt: random.array(),
        iter: CEILING,
        k: random.array(),
        l: random.array(),
        iv: random.array(),
    };
    let body = body(random);
    let file = assemble(&parts, &body, &hmac(&parts.l, &covered(&body)));
    let room = body.len() + 200;
    Case { number: 0, file, parts, body, ceiling: CEILING, room, stretches: true }
}

fn refused(random: &mut Random, number: u32, spoil: impl FnOnce(&mut Case)) -> Case {
    let mut case = Case { number, stretches: number >= 8, ..case(random) };
    spoil(&mut case);
    case
}

/// Each outcome of reading; 9 by the HMAC, and by a record that comes twice.
fn reading(random: &mut Random) -> Vec<Case> {
    vec![
        case(random),
        refused(random, 1, |case| case.file.truncate(231)),
        refused(random, 2, |case| case.parts.passphrase.resize(1025, b'x')),
        refused(random, 3, |case| case.room = case.body.len() - 1),
        refused(random, 4, |case| case.file[0] ^= 1),
        refused(random, 5, |case| case.file[37] = 0),
        refused(random, 6, |case| case.ceiling -= 1),
        refused(random, 7, |case| case.file.truncate(case.file.len() - 16)),
        refused(random, 8, |case| case.parts.passphrase[39] ^= 1),
        refused(random, 9, |case| *case.file.last_mut().unwrap() ^= 1),
        refused(random, 9, |case| {
            let twice = [&case.body[..], &case.body[32..]].concat();
            case.file = assemble(&case.parts, &twice, &hmac(&case.parts.l, &covered(&twice)));
            case.room = twice.len();
        }),
    ]
}

/// Each outcome of writing.
fn writing(random: &mut Random) -> Vec<Case> {
    let mut cases = vec![
        case(random),
        refused(random, 1, |case| case.body.truncate(17)),
        refused(random, 2, |case| case.parts.passphrase.resize(1025, b'x')),
        refused(random, 3, |case| case.room -= 1),
        refused(random, 5, |case| case.parts.iter -= 1),
        refused(random, 9, |case| case.body[4] = 0x77),
        refused(random, 10, |case| {
            let wanted = Twofish::new(&case.parts.k).decrypt(MARKER);
            case.parts.iv = core::array::from_fn(|i| wanted[i] ^ case.body[i]);
        }),
    ];
    cases.iter_mut().for_each(|case| case.stretches &= case.number != 9);
    cases
}

impl Case {
    /// Every run of 8 bytes of passphrase, stretched key, K, L, subkeys and the body's password, as they
    /// are and as SHA-256 holds them: in words of 4 bytes, the highest first.
    fn needles(&self) -> Vec<u8> {
        let Parts { passphrase, salt, iter, k, l, .. } = &self.parts;
        let (stretched, _) = stretch(passphrase, salt, *iter);
        let bytes = |words: [u32; 40]| words.map(u32::to_le_bytes).concat();
        let keys = [bytes(subkeys(k)), bytes(subkeys(&stretched))];
        let password = self.body.get(85..125).unwrap_or(&[]);
        // Of a passphrase that is too long, the part that is no repetition.
        let secret = &passphrase[..40];
        let all: [&[u8]; 7] = [secret, &stretched, k, l, &keys[0], &keys[1], password];
        let swapped = all.map(|secret| {
            secret.chunks(4).flat_map(|word| word.iter().rev()).copied().collect::<Vec<u8>>()
        });
        let all = all.iter().copied().chain(swapped.iter().map(Vec::as_slice));
        all.flat_map(|secret| secret.windows(8)).flatten().copied().collect()
    }

    fn arguments(&self, folder: &Path, writes: bool) -> Vec<String> {
        let put = |name: &str, bytes: &[u8]| {
            let path = folder.join(name);
            fs::write(&path, bytes).unwrap();
            path.into_os_string().into_string().unwrap()
        };
        let Parts { passphrase, salt, iter, k, l, iv } = &self.parts;
        let passphrase = put("passphrase", passphrase);
        let (room, needles) = (self.room.to_string(), put("needles", &self.needles()));
        if writes {
            let parts = put("parts", &[&salt[..], k, l, iv].concat());
            let body = put("body", &self.body);
            vec!["write".into(), parts, passphrase, iter.to_string(), body, room, needles]
        } else {
            let file = put("file", &self.file);
            vec!["read".into(), file, passphrase, self.ceiling.to_string(), room, needles]
        }
    }
}

/// The lines that secrets.c says: number, needles found, other bytes that are left, and how deep.
fn lines(program: &Path, arguments: &[String]) -> Vec<[usize; 4]> {
    let arguments: Vec<&str> = arguments.iter().map(String::as_str).collect();
    let (status, out) = run(program, &arguments);
    assert_eq!(status, 0);
    let numbers =
        |line: &str| -> Vec<usize> { line.split(' ').map(|word| word.parse().unwrap()).collect() };
    out.lines().map(|line| numbers(line).try_into().unwrap()).collect()
}

fn folder(name: &str) -> PathBuf {
    let folder = Path::new(env!("CARGO_TARGET_TMPDIR")).join(name);
    fs::create_dir_all(&folder).unwrap();
    folder
}

/// The call alone leaves secrets wherever it had some; cleared, the stack below it is zero.
fn cleared(program: &Path, case: &Case, arguments: &[String]) {
    let lines = lines(program, arguments);
    assert!(lines.len() == if arguments[0] == "read" { 4 } else { 2 });
    for pair in lines.chunks(2) {
        let (alone, after, number) = (pair[0], pair[1], case.number as usize);
        assert_eq!((alone[0], after[0]), (number, number));
        assert_eq!(alone[1] > 0, case.stretches, "{number}: the search finds what is there");
        assert_eq!(after[1..3], [0, 0], "{number}: nothing is left");
        assert!((TALC_STACK..=TALC_CLEAR_STACK).contains(&after[3]), "{} bytes", after[3]);
    }
}

#[test]
fn cleared_after_reading() {
    let (random, folder) = (&mut Random(61), folder("read-secrets"));
    for language in languages() {
        let program = compiled(language, "rust/tests/secrets.c");
        for case in reading(random) {
            cleared(&program, &case, &case.arguments(&folder, false));
        }
    }
}

#[test]
fn cleared_after_writing() {
    let (random, folder) = (&mut Random(62), folder("write-secrets"));
    for language in languages() {
        let program = compiled(language, "rust/tests/secrets.c");
        for case in writing(random) {
            cleared(&program, &case, &case.arguments(&folder, true));
        }
    }
}

/// However the caller is compiled; the last puts large frames into others, as other compilers do.
#[test]
fn cleared_at_every_level() {
    let (random, folder) = (&mut Random(63), folder("level-secrets"));
    let case = reading(random).pop().unwrap();
    let levels: [&[&str]; 5] =
        [&["-O0"], &["-O1"], &["-Os"], &["-O3"], &["-O2", "--param=large-stack-frame=1000000"]];
    for level in levels {
        let program = compiled(&[&["-std=c99"], level].concat(), "rust/tests/secrets.c");
        cleared(&program, &case, &case.arguments(&folder, false));
    }
}

/// What is cleared is more than any call takes.
#[test]
fn enough_is_cleared() {
    let macros = header::macros();
    assert_eq!(macros["TALC_STACK"] as usize, TALC_STACK);
    assert_eq!(macros["TALC_CLEAR_STACK"] as usize, TALC_CLEAR_STACK);
    let calls = macros.iter().filter(|(name, _)| name.ends_with("_STACK"));
    let calls = calls.filter(|(name, _)| !["TALC_STACK", "TALC_CLEAR_STACK"].contains(&&name[..]));
    let most = calls.map(|(_, bytes)| *bytes as usize).max().unwrap();
    assert!(TALC_STACK >= most + 8192, "{most}");
}

/// How many of these runs of 8 bytes stand there.
fn found(stack: &[u8], needles: &[u8]) -> usize {
    let needles: HashSet<&[u8]> = needles.chunks(8).collect();
    stack.windows(8).filter(|bytes| needles.contains(bytes)).collect::<HashSet<_>>().len()
}

/// Found after the call alone, wherever it had secrets; and none after the wrapper's, which clears the
/// stack by itself.
fn wrapped(case: &Case, call: &mut dyn FnMut() -> u32, wrapper: &mut dyn FnMut() -> u32) {
    let mut numbers = (0, 0);
    let alone = painted(&mut || numbers.0 = call());
    let after = painted(&mut || numbers.1 = wrapper());
    assert_eq!(numbers, (case.number, case.number));
    let needles = case.needles();
    assert_eq!(found(alone.used(), &needles) > 0, case.stretches, "{}", case.number);
    assert_eq!(found(after.used(), &needles), 0, "{}", case.number);
}

#[test]
fn cleared_by_the_wrapper_after_reading() {
    let random = &mut Random(64);
    for case in reading(random) {
        let (file, pass) = (&case.file, &case.parts.passphrase);
        let (mut answer, mut memory) = ([0; 96], vec![0; case.room]);
        let mut call = || unsafe {
            let (start, length) = (memory.as_mut_ptr(), memory.len());
            let (text, size) = (file.as_ptr(), file.len());
            let (secret, known) = (pass.as_ptr(), pass.len());
            raw::talc_read(text, size, secret, known, case.ceiling, start, length, &mut answer)
        };
        let mut workspace = vec![0; case.room];
        // What was opened is looked at where it is: a move may leave a copy behind.
        let mut wrapper = || {
            let opened = talcfeather::read(file, pass, case.ceiling, &mut workspace);
            opened.as_ref().map_or_else(|refusal| refusal.number(), |_| 0)
        };
        wrapped(&case, &mut call, &mut wrapper);
        let mut wrapper = || {
            let read = talcfeather::read_counted(file, pass, case.ceiling, &mut workspace);
            read.0.as_ref().map_or_else(|refusal| refusal.number(), |_| 0)
        };
        wrapped(&case, &mut call, &mut wrapper);
    }
}

#[test]
fn cleared_by_the_wrapper_after_writing() {
    let random = &mut Random(65);
    for case in writing(random) {
        let Parts { passphrase: pass, salt, iter, k, l, iv } = &case.parts;
        let (body, mut memory) = (&case.body, vec![0; case.room]);
        let mut call = || unsafe {
            let (start, length) = (memory.as_mut_ptr(), memory.len());
            let (text, size) = (body.as_ptr(), body.len());
            raw::talc_write(
                pass.as_ptr(),
                pass.len(),
                salt,
                *iter,
                k,
                l,
                iv,
                text,
                size,
                start,
                length,
            )
        };
        let mut output = vec![0; case.room];
        let parts = talcfeather::Parts { salt: *salt, iter: *iter, k: *k, l: *l, iv: *iv };
        let mut wrapper = || {
            let written = talcfeather::write(pass, &parts, body, &mut output);
            written.map_or_else(|refusal| refusal.number(), |_| 0)
        };
        wrapped(&case, &mut call, &mut wrapper);
    }
}
