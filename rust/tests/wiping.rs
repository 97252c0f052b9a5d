//! What is wiped: the workspace and the keys of a file that was read, and the keys of parts, when these
//! are dropped; and what `wipe` itself does.

use peer::random::Random;
use std::mem::MaybeUninit;
use talcfeather::{read, read_counted, record, wipe, write, Builder, Opened, Parts};

const K: [u8; 32] = [2; 32];
const L: [u8; 32] = [3; 32];

fn parts() -> Parts {
    Parts { salt: [1; 32], iter: 2048, k: K, l: L, iv: [4; 16] }
}

/// A safe with one login.
fn safe() -> Vec<u8> {
    let (mut buffer, mut file) = ([0; 112], vec![0; 312]);
    let mut body = Builder::new(&mut buffer, |fill| fill.fill(9));
    body.add(0x00, [0x0e, 0x03]).unwrap();
    body.end().unwrap();
    body.add(record::UUID, [7; 16]).unwrap();
    body.add(record::TITLE, "Lathe").unwrap();
    body.add(record::PASSWORD, "secret").unwrap();
    body.end().unwrap();
    write(b"pass", &parts(), body.body(), &mut file).unwrap();
    file
}

/// Drops the value where it stands, in memory that stays the test's own, and hands out what its keys
/// are then.
fn keys_after_drop<T>(value: T, keys: fn(*const T) -> [*const [u8; 32]; 2]) -> [[u8; 32]; 2] {
    let mut memory = Box::new(MaybeUninit::new(value));
    // Sound: the value is there, is dropped once, and is not used as such again; its keys are arrays of
    // bytes, and stay so.
    unsafe {
        memory.as_mut_ptr().drop_in_place();
        keys(memory.as_ptr()).map(|key| key.read())
    }
}

fn keys_of_opened(opened: *const Opened) -> [*const [u8; 32]; 2] {
    // Sound: the places of two fields, of memory that is there.
    unsafe { [&raw const (*opened).k, &raw const (*opened).l] }
}

fn keys_of_parts(parts: *const Parts) -> [*const [u8; 32]; 2] {
    // Sound: as above.
    unsafe { [&raw const (*parts).k, &raw const (*parts).l] }
}

/// Workspaces that are just long enough, and longer, at any alignment.
#[test]
fn the_workspace() {
    let file = safe();
    let mut memory = vec![0; 400];
    for (start, length) in [(0, 112), (1, 112), (3, 113), (5, 127), (8, 200), (7, 393)] {
        memory.fill(0xEE);
        let opened = read(&file, b"pass", 2048, &mut memory[start..start + length]).unwrap();
        assert_eq!(
            opened.records().next().unwrap().unwrap().text(record::PASSWORD),
            Some("secret")
        );
        drop(opened);
        let (before, rest) = memory.split_at(start);
        let (workspace, after) = rest.split_at(length);
        assert!(workspace.iter().all(|byte| *byte == 0), "{length} bytes at {start}");
        assert!(before.iter().chain(after).all(|byte| *byte == 0xEE), "beside the workspace");
    }
}

/// The same of a reading that is counted, and of one whose outcome nobody looks at.
#[test]
fn the_workspace_of_every_reading() {
    let file = safe();
    let mut workspace = [0xEE; 112];
    drop(read_counted(&file, b"pass", 2048, &mut workspace));
    assert_eq!(workspace, [0; 112]);
    workspace.fill(0xEE);
    let _ = read(&file, b"pass", 2048, &mut workspace);
    assert_eq!(workspace, [0; 112]);
    workspace.fill(0xEE);
    assert_eq!(read(&file, b"another", 2048, &mut workspace).unwrap_err().number(), 8);
    assert_eq!(workspace, [0; 112]);
}

#[test]
fn the_keys_of_a_file() {
    let file = safe();
    let mut workspace = [0xEE; 112];
    let opened = read(&file, b"pass", 2048, &mut workspace).unwrap();
    assert_eq!((opened.k, opened.l), (K, L));
    assert_eq!(keys_after_drop(opened, keys_of_opened), [[0; 32]; 2]);
    assert_eq!(workspace, [0; 112]);
}

#[test]
fn the_keys_of_parts() {
    assert_eq!(keys_after_drop(parts(), keys_of_parts), [[0; 32]; 2]);
    let fresh = Parts::fresh(2048, |bytes| bytes.fill(5));
    assert_eq!(
        (fresh.salt, fresh.iter, fresh.k, fresh.l, fresh.iv),
        ([5; 32], 2048, [5; 32], [5; 32], [5; 16])
    );
    assert_eq!(keys_after_drop(fresh, keys_of_parts), [[0; 32]; 2]);
}

/// Each of them is made of bytes of its own.
#[test]
fn fresh_parts() {
    let random = &mut Random(1);
    let mut lengths = Vec::new();
    let fresh = Parts::fresh(9, |bytes| {
        lengths.push(bytes.len());
        bytes.copy_from_slice(&random.bytes(bytes.len()));
    });
    lengths.sort();
    assert_eq!(lengths, [16, 32, 32, 32]);
    assert!(fresh.k != fresh.l && fresh.k != fresh.salt && fresh.l != fresh.salt);
    assert!([&fresh.salt[..], &fresh.k, &fresh.l].iter().all(|bytes| bytes[..16] != fresh.iv));
    assert!(fresh.clone() == fresh && fresh.iter == 9);
}

#[test]
fn wiped() {
    let mut secret = b"floor 2".to_vec();
    wipe(&mut secret);
    assert_eq!(secret, [0; 7]);
}

/// Every length at every alignment, and nothing beside it.
#[test]
fn every_length() {
    for (start, length) in (0..17).flat_map(|start| (0..80).map(move |length| (start, length))) {
        let mut memory = [0xEE; 128];
        wipe(&mut memory[start..start + length]);
        let expected = |at: usize| if (start..start + length).contains(&at) { 0 } else { 0xEE };
        assert_eq!(memory, std::array::from_fn(expected), "{length} bytes at {start}");
    }
}
