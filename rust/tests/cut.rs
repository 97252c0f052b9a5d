//! Half-copied files: every prefix of a small safe, every single-byte change of it, the marker
//! everywhere, files joined and made longer. Each time the right number and a workspace of zeros.

use peer::random::Random;
use peer::safe::MARKER;
use talcfeather::{append, fill_needed, read, write, Parts, Refusal, END};

const PASSPHRASE: &[u8] = b"half a copy";
const PARTS: Parts = Parts { salt: [5; 32], iter: 2048, k: [6; 32], l: [7; 32], iv: [8; 16] };

/// Version, END, and one record, in seven blocks.
fn body() -> Vec<u8> {
    let fields: [(u8, &[u8]); 6] = [
        (0x00, &[0x0e, 0x03]),
        (END, b""),
        (0x01, b"0123456789abcdef"),
        (0x03, b"Lathe 3"),
        (0x06, b"secret"),
        (END, b""),
    ];
    let (mut body, mut place) = (vec![0; 112], 0);
    for (kind, data) in fields {
        let fill = vec![0xAA; fill_needed(data.len())];
        place = append(&mut body, place, kind, data, &fill).unwrap();
    }
    assert_eq!(place, body.len());
    body
}

fn safe() -> Vec<u8> {
    let mut file = vec![0; 312];
    assert_eq!(write(PASSPHRASE, &PARTS, &body(), &mut file), Ok(312));
    file
}

/// The number; and what the call must leave in a workspace that held junk before.
fn number(file: &[u8]) -> u32 {
    let mut workspace = vec![0xEE; file.len()];
    let number = match read(file, PASSPHRASE, 2048, &mut workspace) {
        Ok(_) => 0,
        Err(refusal) => refusal.number(),
    };
    let rest = if number == 0 { file.len() - 200 } else { 0 };
    assert!(workspace[rest..].iter().all(|b| *b == 0), "left in the workspace");
    number
}

#[test]
fn every_prefix() {
    let file = safe();
    assert_eq!(number(&file), 0);
    for length in 0..file.len() {
        let expected = if length < 232 || (length - 200) % 16 != 0 { 1 } else { 7 };
        assert_eq!(number(&file[..length]), expected, "the first {length} bytes");
    }
}

/// What a change of this one byte must lead to.
fn expected(offset: usize, value: u8) -> u32 {
    match offset {
        0..4 => 4,
        37 if value < 8 => 5,
        36..40 => 6,
        4..72 => 8,
        // The initial vector's bytes over the Version field's fill, which the HMAC does not cover.
        143..152 => 0,
        264..280 => 7,
        _ => 9,
    }
}

fn every_change(offsets: impl Iterator<Item = usize>) {
    let safe = safe();
    for offset in offsets {
        for difference in 1..=255 {
            let mut file = safe.clone();
            file[offset] ^= difference;
            let expected = expected(offset, file[offset]);
            assert_eq!(number(&file), expected, "byte {offset} by {difference:02x}");
        }
    }
}

#[test]
fn every_change_of_an_even_byte() {
    every_change((0..312).step_by(2));
}

#[test]
fn every_change_of_an_odd_byte() {
    every_change((1..312).step_by(2));
}

#[test]
fn the_marker_over_each_block() {
    let safe = safe();
    for block in (152..312).step_by(16) {
        let mut file = safe.clone();
        file[block..block + 16].copy_from_slice(MARKER);
        let expected = match block {
            264 => 0,
            280.. => 9,
            _ => 7,
        };
        assert_eq!(number(&file), expected, "over {block}");
    }
}

#[test]
fn the_marker_between_blocks() {
    let safe = safe();
    for block in (152..=312).step_by(16) {
        let file = [&safe[..block], MARKER, &safe[block..]].concat();
        // Beside the marker that is there, the first of the two is out of place.
        assert_eq!(number(&file), 7, "before {block}");
    }
}

/// At every offset, aligned or not, by the independent implementation.
#[test]
fn the_marker_anywhere() {
    let safe = safe();
    for offset in 0..=safe.len() - 16 {
        let mut file = safe.clone();
        file[offset..offset + 16].copy_from_slice(MARKER);
        let theirs = peer::safe::read(&file, PASSPHRASE, 2048, file.len()).0;
        assert_eq!(number(&file), theirs.err().unwrap_or(0), "at {offset}");
    }
}

/// Two regular files are never a regular length together.
#[test]
fn two_files_joined() {
    let safe = safe();
    let joined = [&safe[..], &safe].concat();
    assert_eq!(number(&joined), 1);
    for more in 1..=16 {
        let longer = [&joined[..], &vec![0; more]].concat();
        assert_eq!(number(&longer), if more % 16 == 8 { 7 } else { 1 });
        let between = [&safe[..], &vec![0; more], &safe].concat();
        assert_eq!(number(&between), if more % 16 == 8 { 7 } else { 1 });
    }
}

#[test]
fn bytes_appended() {
    let safe = safe();
    let mut random = Random(1);
    for more in (1..=64).chain([1024, 1025]) {
        let longer = [&safe[..], &random.bytes(more)].concat();
        assert_eq!(number(&longer), if more % 16 == 0 { 7 } else { 1 }, "{more} bytes");
    }
}

/// Cut out of the middle, as a copy that lost a piece.
#[test]
fn a_piece_lost() {
    let safe = safe();
    for start in (152..312).step_by(16) {
        for end in (start + 16..=312).step_by(16) {
            let file = [&safe[..start], &safe[end..]].concat();
            let theirs = peer::safe::read(&file, PASSPHRASE, 2048, file.len()).0;
            assert_eq!(number(&file), theirs.err().unwrap_or(0), "{start} to {end}");
            assert_ne!(number(&file), 0);
        }
    }
}

#[test]
fn another_passphrase() {
    let mut workspace = vec![0xEE; 112];
    let refused = read(&safe(), b"half a cop", 2048, &mut workspace).map(|_| ());
    assert_eq!(refused, Err(Refusal::Wrong));
    assert_eq!(workspace, [0; 112]);
}
