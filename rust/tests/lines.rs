//! The cases on each side of a line, with their numbers written out.

mod common;

use common::bodies::{field, join, part, Part};
use common::calls::*;
use peer::fields::{append, fill_needed, size, Cursor, END};
use peer::random::Random;
use peer::safe::{assemble, Parts};

fn parts() -> Parts {
    let passphrase = b"on each side of a line".to_vec();
    Parts { passphrase, salt: [1; 32], iter: 2048, k: [2; 32], l: [3; 32], iv: [4; 16] }
}

fn smallest(random: &mut Random) -> Vec<u8> {
    join(random, &[part(0x00, &[0x0e, 0x03]), part(END, &[])])
}

/// The library's file around a well-formed body.
fn file(random: &mut Random, body: &[u8]) -> Vec<u8> {
    let written = Write { parts: &parts(), body, room: body.len() + 200 }.ours(random);
    assert_eq!(written.number, 0);
    written.memory
}

/// The library's outcome, which is also the peer's.
fn read(random: &mut Random, file: &[u8], ceiling: u32) -> Outcome {
    let room = file.len().saturating_sub(200);
    let case = Read { file, passphrase: &parts().passphrase, ceiling, room };
    let ours = case.ours(random);
    assert_eq!(ours, case.theirs());
    ours
}

fn counts(outcome: &Outcome) -> Vec<u64> {
    let numbers = outcome.answer[64..].chunks_exact(8);
    numbers.map(|n| u64::from_le_bytes(n.try_into().unwrap())).collect()
}

#[test]
fn blocks_of_a_field() {
    let random = &mut Random(1);
    for (length, blocks) in [(0, 1), (11, 1), (12, 2), (27, 2), (28, 3)] {
        let body = field(random, &Part { kind: 0x05, data: vec![b'n'; length] });
        let at = Cursor { place: 0, in_record: true };
        let walked = Walk { body: &body, at }.ours(random);
        assert_eq!(walked.number, 0);
        assert_eq!(walked.answer[8], 16 * blocks);
    }
}

#[test]
fn version_and_end_alone() {
    let random = &mut Random(2);
    let body = smallest(random);
    let made = file(random, &body);
    let opened = read(random, &made, 2048);
    assert_eq!(opened.number, 0);
    assert_eq!(opened.memory, body);
    assert_eq!(counts(&opened), [1, 0, 1 + 2048 + 1, 4 + 2]);
}

#[test]
fn compressions_by_passphrase() {
    let random = &mut Random(3);
    for (length, blocks) in [(0, 1), (23, 1), (24, 2), (1024, 17)] {
        let parts = Parts { passphrase: vec![b'p'; length], ..parts() };
        let body = smallest(random);
        let written = Write { parts: &parts, body: &body, room: 232 }.ours(random);
        let passphrase = &parts.passphrase;
        let case = Read { file: &written.memory, passphrase, ceiling: 2048, room: 32 };
        assert_eq!(counts(&case.ours(random))[2], blocks + 2048 + 1);
    }
}

#[test]
fn passphrases_of_1024_and_1025() {
    let random = &mut Random(4);
    let (body, whole) = (smallest(random), vec![b'p'; 1025]);
    let parts = Parts { passphrase: whole[..1024].to_vec(), ..parts() };
    let written = Write { parts: &parts, body: &body, room: 232 }.ours(random);
    for (passphrase, number) in [(&whole[..1024], 0), (&whole[..], 2), (&whole[..1023], 8)] {
        let case = Read { file: &written.memory, passphrase, ceiling: 2048, room: 32 };
        assert_eq!(case.ours(random).number, number);
        let parts = Parts { passphrase: passphrase.to_vec(), ..parts.clone() };
        let refused = Write { parts: &parts, body: &body, room: 232 }.ours(random).number;
        assert_eq!(refused, if number == 2 { 2 } else { 0 });
    }
}

/// A body of that length: Version, END, and one record with long notes.
fn body_of(random: &mut Random, length: usize) -> Vec<u8> {
    let mut fields = vec![part(0x00, &[0x0e, 0x03]), part(END, &[]), part(0x01, &[9; 16])];
    fields.extend([part(0x03, b"t"), part(0x06, b"p"), part(0x05, &[]), part(END, &[])]);
    let others = join(random, &fields).len() - 16;
    fields[5].data = vec![b'n'; length - others - 5];
    assert_eq!(size(fields[5].data.len()) + others, length);
    join(random, &fields)
}

#[test]
fn lengths_of_files() {
    let random = &mut Random(5);
    let smallest = smallest(random);
    let small = file(random, &smallest);
    let body = body_of(random, 4_194_096);
    let long = file(random, &body);
    assert_eq!((small.len(), long.len()), (232, 4_194_296));
    assert_eq!(read(random, &small, 2048).number, 0);
    assert_eq!(read(random, &small[..231], 2048).number, 1);
    assert_eq!(read(random, &[&small[..], &[0]].concat(), 2048).number, 1);
    let opened = read(random, &long, 2048);
    assert_eq!(opened.number, 0);
    assert!(opened.memory == body);
    for more in [1, 7, 8, 9, 16] {
        let longer = [&long[..], &vec![0; more]].concat();
        assert_eq!(read(random, &longer, 2048).number, 1, "{more} bytes more");
    }
}

#[test]
fn lengths_of_bodies_to_write() {
    let random = &mut Random(6);
    let smallest = smallest(random);
    let longer = [body_of(random, 4_194_096), vec![0; 16]].concat();
    let cases: [(&[u8], u32); 7] = [
        (&[], 1),
        (&smallest[..16], 1),
        (&smallest[..31], 1),
        (&smallest, 0),
        (&longer[..4_194_095], 1),
        (&longer[..4_194_096], 0),
        (&longer, 1),
    ];
    for (body, number) in cases {
        let written = Write { parts: &parts(), body, room: body.len() + 200 }.ours(random);
        assert_eq!(written.number, number, "{} bytes", body.len());
        assert_eq!(written.memory.iter().all(|b| *b == 0), number != 0);
    }
}

/// A field length at which 5 more runs over in 32 bits; no writer of ours makes such a file.
#[test]
fn a_field_of_4_294_967_295() {
    let random = &mut Random(7);
    let mut body = smallest(random);
    for low in 0xf0..=0xff {
        body[..4].copy_from_slice(&[low, 0xff, 0xff, 0xff]);
        let at = Cursor { place: 0, in_record: false };
        assert_eq!(Walk { body: &body, at }.ours(random).number, 14);
        assert_eq!(judge_ours(&body, random).number, 9);
        let made = assemble(&parts(), &body, &[0; 32]);
        let refused = read(random, &made, 2048);
        assert_eq!(refused.number, 9);
        assert_eq!(counts(&refused), [0, 0, 2050, 6]);
    }
}

#[test]
fn iterations_and_ceilings() {
    let random = &mut Random(8);
    let body = smallest(random);
    let mut made = file(random, &body);
    for (ceiling, number) in [(0, 6), (2047, 6), (2048, 0), (u32::MAX, 0)] {
        assert_eq!(read(random, &made, ceiling).number, number, "ceiling {ceiling}");
    }
    made[36..40].copy_from_slice(&[0xff, 0x07, 0, 0]);
    for ceiling in [0, 2046, 2047, u32::MAX] {
        assert_eq!(read(random, &made, ceiling).number, 5, "ceiling {ceiling}");
    }
    made[36..40].fill(0xff);
    assert_eq!(read(random, &made, u32::MAX - 1).number, 6);
    for (iter, number) in [(2047, 5), (2048, 0)] {
        let parts = Parts { iter, ..parts() };
        assert_eq!(Write { parts: &parts, body: &body, room: 232 }.ours(random).number, number);
    }
}

#[test]
fn a_wrong_tag_and_iter_0() {
    let random = &mut Random(9);
    let body = smallest(random);
    let mut made = file(random, &body);
    made[36..40].fill(0);
    assert_eq!(read(random, &made, 2048).number, 5);
    made[3] = b'4';
    assert_eq!(read(random, &made, 2048).number, 4);
}

#[test]
fn room() {
    let random = &mut Random(10);
    let body = smallest(random);
    let made = file(random, &body);
    for (room, number) in [(0, 3), (31, 3), (32, 0), (33, 0)] {
        let case = Read { file: &made, passphrase: &parts().passphrase, ceiling: 2048, room };
        let outcome = case.ours(random);
        assert_eq!(outcome, case.theirs());
        assert_eq!(outcome.number, number, "room {room}");
        let written = Write { parts: &parts(), body: &body, room: room + 200 }.ours(random);
        assert_eq!(written.number, number, "room {room}");
    }
}

/// Near the longest body, and past it in a longer buffer.
#[test]
fn append_near_the_longest_body() {
    let random = &mut Random(11);
    let longest = 4_194_096;
    let places = [(longest - 32, 0), (longest - 16, 3), (longest, 3), (longest + 16, 3)];
    for length in [longest, longest + 64] {
        let buffer = random.bytes(length);
        for (place, number) in places {
            let number = if place > length { 11 } else { number };
            let case =
                Append { buffer: &buffer, place, kind: 5, data: &[b'n'; 12], fill: &[1; 15] };
            let ours = case.ours(random);
            assert_eq!(ours.number, number, "{place} of {length}");
            assert_eq!(ours, case.theirs());
        }
    }
}

/// The order of append's refusals: 11, 13, 12, 3.
#[test]
fn append_by_its_order() {
    let random = &mut Random(12);
    let buffer = random.bytes(16);
    let cases: [(usize, u8, usize, usize, u32); 6] = [
        (8, END, 12, 0, 11),
        (32, END, 12, 0, 11),
        (16, END, 12, 0, 13),
        (16, 0x03, 12, 0, 12),
        (16, 0x03, 12, 15, 3),
        (0, 0x03, 11, 0, 0),
    ];
    for (place, kind, data, fill, number) in cases {
        let (data, fill) = (vec![b'd'; data], vec![b'f'; fill]);
        let case = Append { buffer: &buffer, place, kind, data: &data, fill: &fill };
        let ours = case.ours(random);
        assert_eq!(ours.number, number);
        assert_eq!(ours, case.theirs());
    }
}

/// Every type in header and record, at every length that a type could ask for.
#[test]
fn values_of_every_type() {
    let random = &mut Random(13);
    for kind in 0..=0xff {
        let lengths = [0, 1, 2, 3, 4, 5, 7, 8, 9, 15, 16, 17];
        // The second is a hex digit.
        for (length, byte) in lengths.into_iter().flat_map(|length| [(length, 1), (length, b'1')]) {
            let mut body = vec![0; size(length)];
            let same = vec![byte; length];
            let fill = vec![0; fill_needed(length)];
            let data = if kind == END { &[][..] } else { &same };
            let fill = if kind == END { &[0; 11][..] } else { &fill };
            append(&mut body, 0, kind, data, fill).unwrap();
            for in_record in [false, true] {
                let at = Cursor { place: 0, in_record };
                let case = Walk { body: &body, at };
                let ours = case.ours(random);
                assert_eq!(ours, case.theirs(), "type {kind}, {length} bytes, {in_record}");
            }
        }
    }
}

/// A body with one title of those bytes.
fn title(body: &mut [u8; 16], data: &[u8]) {
    body[0] = data.len() as u8;
    body[4] = 0x03;
    body[5..5 + data.len()].copy_from_slice(data);
}

fn same_text(data: &[u8]) {
    let mut body = [0; 16];
    title(&mut body, data);
    let walked = talcfeather::walk(&body, talcfeather::Cursor { place: 0, in_record: true });
    let value = walked.unwrap().unwrap().0.value;
    let text = || talcfeather::Value::Text(std::str::from_utf8(data).unwrap());
    let bad = talcfeather::Value::BadText;
    assert_eq!(value, peer::text::goes_wrong(data).map_or_else(text, bad), "{data:x?}");
}

/// Every text of one and two bytes, and all of three to five bytes from those that decide.
#[test]
fn texts() {
    let deciding = [
        0x00, 0x41, 0x7f, 0x80, 0x8f, 0x90, 0x9f, 0xa0, 0xbb, 0xbf, 0xc0, 0xc1, 0xc2, 0xdf, 0xe0,
        0xe1, 0xec, 0xed, 0xee, 0xef, 0xf0, 0xf1, 0xf3, 0xf4, 0xf5, 0xff,
    ];
    for first in 0..=255 {
        same_text(&[first]);
        (0..=255).for_each(|second| same_text(&[first, second]));
    }
    let pairs = deciding.iter().flat_map(|a| deciding.map(|b| [*a, b]));
    for [a, b] in pairs {
        for c in deciding {
            same_text(&[a, b, c]);
            for d in deciding {
                same_text(&[a, b, c, d]);
                same_text(&[a, b, c, d, 0x41]);
                same_text(&[a, b, c, d, 0xff]);
                same_text(&[0xc3, 0xa4, a, b, c, d]);
            }
        }
    }
}
