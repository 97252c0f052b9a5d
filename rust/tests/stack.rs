//! How much stack each call takes, in each of its outcomes: it runs on a painted stack of its own, and
//! the paint that is left tells. The bounds are the header's.

mod common;

use common::bodies::{field, part, Part};
use common::header;
use common::painted::painted;
use common::tables::*;
use common::traces::*;
use common::uuids::{body_with, chosen};
use peer::body::covered;
use peer::hmac::hmac;
use peer::random::Random;
use peer::safe::{assemble, Parts, MARKER};
use peer::twofish::Twofish;
use talcfeather::raw;

/// By how much a bound may be over what was measured, in bytes.
const SLACK: usize = 768;
/// No bound is over this, in bytes.
const MOST: usize = 16 * 1024;
/// Or over this, where a body is judged: the table in which its UUIDs are looked up stands on the
/// stack, whatever the body's length.
const JUDGING: usize = 64 * 1024;

fn used_by(call: &mut dyn FnMut()) -> usize {
    painted(call).used().len()
}

#[inline(never)]
fn takes<const N: usize>() {
    std::hint::black_box(&mut [1u8; N]);
}

/// The measure itself: what a function is known to take is seen.
#[test]
fn the_paint_tells() {
    assert!(used_by(&mut || {}) < 512);
    assert!((10_000..10_512).contains(&used_by(&mut takes::<10_000>)));
    assert!((70_000..70_512).contains(&used_by(&mut takes::<70_000>)));
    assert!(used_by(&mut takes::<{ MOST + 1 }>) > MOST);
    assert!(used_by(&mut takes::<{ JUDGING + 1 }>) > JUDGING);
}

/// A call, the bound that the header has for it, and the most that it has taken so far.
struct Uses {
    call: &'static str,
    bound: usize,
    most: usize,
}

impl Uses {
    /// The header's bound is at most that.
    fn of(call: &'static str, most: usize) -> Uses {
        let bound = header::macros()[&format!("TALC_{call}_STACK")] as usize;
        assert!(bound <= most, "{call}: {bound} bytes");
        Uses { call, bound, most: 0 }
    }

    /// The call answers this number, and stays within its bound.
    fn run(&mut self, number: u32, call: &mut dyn FnMut() -> u32) {
        let mut answered = 0;
        let used = used_by(&mut || answered = call());
        assert_eq!(answered, number);
        assert!(used <= self.bound, "{}: {used} bytes", self.call);
        self.most = self.most.max(used);
    }

    /// The bound says what the call takes, not just something larger.
    fn tight(&self) {
        println!("{}: {} bytes of {}", self.call, self.most, self.bound);
        assert!(self.bound < self.most + SLACK, "{}: at most {} bytes", self.call, self.most);
    }
}

const SECRET: &[u8; 4] = b"pass";

const SALT: [u8; 32] = [1; 32];
const K: [u8; 32] = [2; 32];
const L: [u8; 32] = [3; 32];
const IV: [u8; 16] = [4; 16];

fn write_uses(uses: &mut Uses, body: &[u8], output: &mut [u8], iter: u32, number: u32) {
    write_with(uses, (SECRET, &IV), body, output, (iter, number));
}

/// With that passphrase and initial vector.
fn write_with(
    uses: &mut Uses,
    (pass, iv): (&[u8], &[u8; 16]),
    body: &[u8],
    output: &mut [u8],
    (iter, number): (u32, u32),
) {
    uses.run(number, &mut || {
        let (start, length) = (output.as_mut_ptr(), output.len());
        let (text, size, secret, known) = (body.as_ptr(), body.len(), pass.as_ptr(), pass.len());
        unsafe {
            raw::talc_write(secret, known, &SALT, iter, &K, &L, iv, text, size, start, length)
        }
    });
}

fn read_uses(uses: &mut Uses, file: &[u8], pass: &[u8], ceiling: u32, number: u32) {
    read_into(uses, file, pass, vec![0; file.len()], (ceiling, number));
}

fn read_into(
    uses: &mut Uses,
    file: &[u8],
    pass: &[u8],
    mut workspace: Vec<u8>,
    (ceiling, number): (u32, u32),
) {
    let mut answer = [0; 96];
    uses.run(number, &mut || {
        let (start, length) = (workspace.as_mut_ptr(), workspace.len());
        let (text, size, secret) = (file.as_ptr(), file.len(), pass.as_ptr());
        unsafe {
            raw::talc_read(text, size, secret, pass.len(), ceiling, start, length, &mut answer)
        }
    });
}

/// The file of any body, with the right HMAC.
fn file_of(body: &[u8]) -> Vec<u8> {
    let parts = Parts { passphrase: SECRET.to_vec(), salt: SALT, iter: 2048, k: K, l: L, iv: IV };
    assemble(&parts, body, &hmac(&parts.l, &covered(body)))
}

/// Bodies without a record, with few, with more than the table takes in at once, and with more than it
/// has room for from its last start on.
fn bodies(random: &mut Random) -> Vec<Vec<u8>> {
    let few: Vec<Uuid> = (0..3).map(counted).collect();
    let many: Vec<Uuid> = (0..14_000).map(counted).collect();
    let last: Vec<Uuid> = (0..2100).map(|_| chosen(random, 24_575)).collect();
    [&[], &few[..], &many, &last].map(|uuids| body_with(random, uuids)).into()
}

/// The same with one record more, which has the UUID of the first; none for a body without one.
fn doubled(body: &[u8]) -> Option<Vec<u8>> {
    let first = body.get(32..112)?;
    Some([body, first].concat())
}

/// Short and long, accepted and refused in each way.
#[test]
fn safes_at_most_64_kb() {
    let random = &mut Random(3);
    let (mut read, mut write) = (Uses::of("READ", JUDGING), Uses::of("WRITE", JUDGING));
    for body in bodies(random) {
        let mut file = vec![0; body.len() + 200];
        write_uses(&mut write, &body, &mut file[1..], 2048, 3);
        write_uses(&mut write, &body, &mut file, 2047, 5);
        write_uses(&mut write, &body[1..], &mut file, 2048, 1);
        write_uses(&mut write, &[0xff; 32], &mut file, 2048, 9);
        write_with(&mut write, (&[b'x'; 1025], &IV), &body, &mut file, (2048, 2));
        let wanted = Twofish::new(&K).decrypt(MARKER);
        let iv = core::array::from_fn(|i| wanted[i] ^ body[i]);
        write_with(&mut write, (SECRET, &iv), &body, &mut file, (2048, 10));
        write_uses(&mut write, &body, &mut file, 2048, 0);
        read_uses(&mut read, &file, SECRET, 4096, 0);
        read_uses(&mut read, &file, SECRET, 2048, 0);
        read_uses(&mut read, &file, b"past", 2048, 8);
        read_uses(&mut read, &file, &[b'x'; 1025], 2048, 2);
        read_into(&mut read, &file, SECRET, vec![0; body.len() - 1], (2048, 3));
        read_uses(&mut read, &file, SECRET, 2047, 6);
        read_uses(&mut read, &file[..100], SECRET, 4096, 1);
        let marker = file.len() - 48;
        file[marker] ^= 1;
        read_uses(&mut read, &file, SECRET, 2048, 7);
        file[marker] ^= 1;
        file[160] ^= 1;
        read_uses(&mut read, &file, SECRET, 4096, 9);
        file[36..40].fill(0);
        read_uses(&mut read, &file, SECRET, 2048, 5);
        file[0] ^= 1;
        read_uses(&mut read, &file, SECRET, 2048, 4);
        if let Some(doubled) = doubled(&body) {
            write_uses(&mut write, &doubled, &mut vec![0; doubled.len() + 200], 2048, 9);
            read_uses(&mut read, &file_of(&doubled), SECRET, 4096, 9);
        }
    }
    read.tight();
    write.tight();
}

fn judge_uses(uses: &mut Uses, body: &[u8], number: u32) {
    let mut answer = [0; 16];
    uses.run(number, &mut || unsafe { raw::talc_judge(body.as_ptr(), body.len(), &mut answer) });
}

fn find_uses(uses: &mut Uses, body: &[u8], uuid: &Uuid, number: u32) {
    let mut answer = [0; 32];
    uses.run(number, &mut || unsafe {
        raw::talc_find(body.as_ptr(), body.len(), uuid, &mut answer)
    });
}

/// Accepted and refused: before any UUID is looked up, and by the last one.
#[test]
fn judging_at_most_64_kb() {
    let random = &mut Random(4);
    let (mut judge, mut find) = (Uses::of("JUDGE", JUDGING), Uses::of("FIND", JUDGING));
    for body in bodies(random) {
        judge_uses(&mut judge, &body, 0);
        judge_uses(&mut judge, &body[..body.len() - 1], 9);
        find_uses(&mut find, &body, &counted(2), 0);
        find_uses(&mut find, &body, &[9; 16], 0);
        find_uses(&mut find, &body[..16], &[9; 16], 9);
        if let Some(doubled) = doubled(&body) {
            judge_uses(&mut judge, &doubled, 9);
            find_uses(&mut find, &doubled, &[9; 16], 9);
        }
    }
    judge.tight();
    find.tight();
}

fn walk_uses(uses: &mut Uses, body: &[u8], place: usize, in_record: bool, number: u32) {
    let mut answer = [0; 72];
    uses.run(number, &mut || unsafe {
        raw::talc_walk(body.as_ptr(), body.len(), place, in_record, &mut answer)
    });
}

fn append_uses(uses: &mut Uses, place: usize, kind: u8, data: &[u8], fill: usize, number: u32) {
    let (mut buffer, mut next, filled) = ([0; 128], [0; 8], [0; 16]);
    uses.run(number, &mut || {
        let (start, length) = (buffer.as_mut_ptr(), buffer.len());
        let (text, size, rest) = (data.as_ptr(), data.len(), filled.as_ptr());
        unsafe { raw::talc_append(start, length, place, kind, text, size, rest, fill, &mut next) }
    });
}

/// Every type with a text, a stamp, a UUID and what is none of these; the end; and every refusal.
#[test]
fn fields() {
    let random = &mut Random(5);
    let (mut walk, mut append) = (Uses::of("WALK", MOST), Uses::of("APPEND", MOST));
    let datas: [&[u8]; 6] = [b"", b"Lathe", b"4A5b6c7D", b"La\xffhe", &[7; 16], &[b'n'; 4000]];
    for data in datas {
        for kind in 0..0xff {
            let body = field(random, &part(kind, data));
            for in_record in [false, true] {
                walk_uses(&mut walk, &body, 0, in_record, 0);
                walk_uses(&mut walk, &body, body.len(), in_record, 0);
            }
        }
    }
    walk_uses(&mut walk, &[0; 16], 1, false, 11);
    walk_uses(&mut walk, &[0xff; 16], 0, false, 14);
    walk_uses(&mut walk, &[0; 15], 0, true, 14);
    append_uses(&mut append, 0, 0x03, b"Lathe", 6, 0);
    append_uses(&mut append, 32, 0x05, &[b'n'; 91], 0, 0);
    append_uses(&mut append, 1, 0x03, b"Lathe", 6, 11);
    append_uses(&mut append, 0, 0x03, b"Lathe", 7, 12);
    append_uses(&mut append, 0, 0xff, b"Lathe", 6, 13);
    append_uses(&mut append, 112, 0x05, &[b'n'; 12], 15, 3);
    walk.tight();
    append.tight();
}

fn replay_uses(uses: &mut Uses, state: &mut [u8], trace: &[u8], number: u32) {
    let mut answer = [0; 8];
    uses.run(number, &mut || {
        let (start, length) = (state.as_mut_ptr(), state.len());
        unsafe { raw::talc_replay(start, length, trace.as_ptr(), trace.len(), &mut answer) }
    });
}

fn standing_uses(uses: &mut Uses, state: &[u8], uuid: &Uuid, number: u32) {
    let mut answer = [0; 40];
    uses.run(number, &mut || unsafe {
        raw::talc_standing(state.as_ptr(), state.len(), uuid, &mut answer)
    });
}

/// Accepted and refused in each way, on fresh, full and damaged states.
#[test]
fn at_most_16_kb() {
    let random = &mut Random(1);
    let full: Vec<u8> = (0..4096).flat_map(|_| record(&random.array(), 5, CANCEL)).collect();
    let long: Vec<u8> = full.repeat(5);
    let more = [&full[..], &record(&[9; 16], 5, EDIT)].concat();
    let mut state = vec![0; 131_072];
    let (mut replay, mut standing) = (Uses::of("REPLAY", MOST), Uses::of("STANDING", MOST));
    standing_uses(&mut standing, &state, &[9; 16], 0);
    replay_uses(&mut replay, &mut state, &[], 0);
    replay_uses(&mut replay, &mut state, &more, 16);
    replay_uses(&mut replay, &mut state, &long[..32 * 4095], 0);
    replay_uses(&mut replay, &mut state, &long, 0);
    replay_uses(&mut replay, &mut state, &long[1..], 16);
    replay_uses(&mut replay, &mut state, &more[..more.len() - 1], 16);
    standing_uses(&mut standing, &state, &[9; 16], 0);
    standing_uses(&mut standing, &state, &full[..16].try_into().unwrap(), 0);
    standing_uses(&mut standing, &state[1..], &[9; 16], 19);
    replay_uses(&mut replay, &mut state[1..], &long, 19);
    state[131_071] = 0xff;
    replay_uses(&mut replay, &mut state, &long, 19);
    replay.tight();
    standing.tight();
}

fn export_uses(uses: &mut Uses, body: &[u8], output: &mut [u8], number: u32) {
    let mut answer = [0; 24];
    uses.run(number, &mut || {
        let (start, length) = (output.as_mut_ptr(), output.len());
        unsafe { raw::talc_export(body.as_ptr(), body.len(), NOW, start, length, &mut answer) }
    });
}

/// Accepted and refused in each way, short and long.
#[test]
fn exports_at_most_64_kb() {
    let random = &mut Random(2);
    let mut output = vec![0; 14_000 * 256];
    let mut uses = Uses::of("EXPORT", JUDGING);
    for body in bodies(random) {
        export_uses(&mut uses, &body, &mut output, 0);
        if let Some(doubled) = doubled(&body) {
            export_uses(&mut uses, &doubled, &mut output, 9);
        }
    }
    let fields = [part(USER, &[b'u'; 80]), part(GROUP, &[b'g'; 72]), part(EXPIRY, &[1; 4])];
    let mut logins: Vec<Vec<Part>> = (0..3000).map(|n| login(&counted(n), &fields)).collect();
    let body = body_of(random, &logins);
    export_uses(&mut uses, &body, &mut output[..768_000], 0);
    export_uses(&mut uses, &body, &mut output[..767_999], 3);
    export_uses(&mut uses, &body[..body.len() - 1], &mut output, 9);
    export_uses(&mut uses, &[], &mut [], 9);
    for fault in [part(TITLE, &[b't'; 81]), part(GROUP, &[0xff]), part(EXPIRY, &[1; 5])] {
        logins.push(login(&[7; 16], &[fault]));
        let body = body_of(random, &logins);
        export_uses(&mut uses, &body, &mut output, 18);
        logins.pop();
    }
    uses.tight();
}

/// Import, and the rows 1 to 4 of the table, of which the last may be at fault or past the end.
fn import_uses(import: &mut Uses, row: &mut Uses, table: &[u8], number: u32, last: u32) {
    let mut answer = [0; 16];
    import
        .run(number, &mut || unsafe { raw::talc_import(table.as_ptr(), table.len(), &mut answer) });
    for (at, number) in [(0, 0), (1, 0), (2, 0), (3, last)] {
        let mut answer = [0; 56];
        row.run(number, &mut || unsafe {
            raw::talc_row(table.as_ptr(), table.len(), at, &mut answer)
        });
    }
}

/// Tables of 3,000 full rows, of none, cut, and with a pad that is not zero.
#[test]
fn tables_at_most_16_kb() {
    let full = stored(&[7; 16], [&[b't'; 80], &[b'u'; 80], &[b'g'; 72]], -1);
    let mut table = full.repeat(3000);
    let (mut import, mut row) = (Uses::of("IMPORT", MOST), Uses::of("ROW", MOST));
    import_uses(&mut import, &mut row, &[], 0, 0);
    import_uses(&mut import, &mut row, &table, 0, 0);
    import_uses(&mut import, &mut row, &table[..767_999], 18, 0);
    import_uses(&mut import, &mut row, &table[..1023], 18, 18);
    table[1023] = 1;
    import_uses(&mut import, &mut row, &table, 18, 18);
    import.tight();
    row.tight();
}

#[test]
fn the_version() {
    let mut uses = Uses::of("VERSION", MOST);
    uses.run(5, &mut || unsafe { raw::talc_version() });
    uses.tight();
}
