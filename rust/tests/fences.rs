//! Walk, find, export, import and row in memory between pages that can't be touched: nothing is read
//! beyond what is lent, and nothing is written to what is lent for reading.

mod common;

use common::bodies::{any, damage, field, part, UUID};
use common::calls::*;
use common::fenced::Fenced;
use common::tables::*;
use peer::fields::Cursor;
use peer::random::Random;
use talcfeather::raw;

fn walk(body: &[u8], at: Cursor, before: bool) -> Outcome {
    let body = Fenced::shown(body, before);
    let answer = Fenced::new(&[0xEE; 72], before);
    let number = unsafe {
        let answer = answer.pointer().cast();
        raw::talc_walk(body.pointer(), body.len(), at.place, at.in_record, answer)
    };
    Outcome { number, answer: answer.content(), memory: Vec::new() }
}

fn find(body: &[u8], uuid: &[u8; 16], before: bool) -> Outcome {
    let body = Fenced::shown(body, before);
    let uuid = Fenced::shown(uuid, before);
    let answer = Fenced::new(&[0xEE; 32], before);
    let number = unsafe {
        let (uuid, answer) = (uuid.pointer().cast(), answer.pointer().cast());
        raw::talc_find(body.pointer(), body.len(), uuid, answer)
    };
    Outcome { number, answer: answer.content(), memory: Vec::new() }
}

fn export(body: &[u8], now: u32, output: &[u8], before: bool) -> Outcome {
    let body = Fenced::shown(body, before);
    let output = Fenced::new(output, before);
    let answer = Fenced::new(&[0xEE; 24], before);
    let number = unsafe {
        let (start, length) = (output.pointer(), output.len());
        raw::talc_export(body.pointer(), body.len(), now, start, length, answer.pointer().cast())
    };
    Outcome { number, answer: answer.content(), memory: output.content() }
}

fn import(table: &[u8], before: bool) -> Outcome {
    let table = Fenced::shown(table, before);
    let answer = Fenced::new(&[0xEE; 16], before);
    let number = unsafe { raw::talc_import(table.pointer(), table.len(), answer.pointer().cast()) };
    Outcome { number, answer: answer.content(), memory: Vec::new() }
}

fn row(table: &[u8], number: usize, before: bool) -> Outcome {
    let table = Fenced::shown(table, before);
    let answer = Fenced::new(&[0xEE; 56], before);
    let number =
        unsafe { raw::talc_row(table.pointer(), table.len(), number, answer.pointer().cast()) };
    Outcome { number, answer: answer.content(), memory: Vec::new() }
}

/// The body ends with a text, and the text with a character that is whole or cut.
#[test]
fn texts() {
    let whole = ["n", "ä", "密", "🔑"].map(|c| (c.as_bytes(), true));
    let cut: [&[u8]; 6] = [b"\xc3", b"\xe5", b"\xe5\xaf", b"\xf0", b"\xf0\x9f", b"\xf0\x9f\x94"];
    let at = Cursor { place: 0, in_record: true };
    for (end, good) in whole.into_iter().chain(cut.map(|end| (end, false))) {
        for length in [11, 27, 43] {
            let text = [&vec![b'n'; length - end.len()], end].concat();
            let body = field(&mut Random(4), &part(0x03, &text));
            assert_eq!(body.len(), 5 + length, "no fill");
            let told = if good { [6, 0] } else { [7, (length - end.len()) as u8] };
            for before in [true, false] {
                let ours = walk(&body, at, before);
                assert_eq!([ours.answer[48], ours.answer[56]], told, "{text:x?}");
                assert_eq!(ours, Walk { body: &body, at }.theirs());
            }
        }
    }
}

/// The body is one time of the header: of eight digits, of four bytes, and of lengths near these.
#[test]
fn stamps() {
    let at = Cursor { place: 0, in_record: false };
    for length in 0..=11 {
        for byte in [b'1', b'g'] {
            let body = field(&mut Random(5), &part(0x04, &vec![byte; length]));
            assert_eq!(body.len(), 16);
            for before in [true, false] {
                let ours = walk(&body, at, before);
                let time = length == 4 || (length == 8 && byte == b'1');
                assert_eq!(ours.answer[48] == 3, time, "{length} bytes");
                assert_eq!(ours, Walk { body: &body, at }.theirs());
            }
        }
    }
}

#[test]
fn records() {
    let (random, mut met) = (&mut Random(3), Met::default());
    while met.cases() < 2000 {
        let body = any(random);
        for before in [true, false] {
            met.same(find(&body, &UUID, before), find_theirs(&body, &UUID), body.len());
        }
    }
    met.each_of(&[0, 9], 300);
}

#[test]
fn bodies() {
    let (random, mut met) = (&mut Random(1), Met::default());
    while met.cases() < 2000 {
        let now = any_now(random);
        let logins = any_logins(random, now);
        let mut body = body_of(random, &logins);
        if random.one_in(3) {
            damage(random, &mut body);
        }
        let room = 256 * logins.len();
        let length = random.pick(&[room, room, room.saturating_sub(1)]);
        let output = random.bytes(length);
        for before in [true, false] {
            let theirs = Export { body: &body, now, output: &output }.theirs();
            met.same(export(&body, now, &output, before), theirs, (now, body.len()));
        }
    }
    met.each_of(&[0, 3, 9, 18], 50);
}

/// Cut at every length, and whole.
#[test]
fn tables() {
    let random = &mut Random(2);
    let texts = [80, 80, 72].map(|length| text(random, length));
    let full = stored(&[7; 16], [&texts[0], &texts[1], &texts[2]], -1);
    let table = [full, stored(&[8; 16], [b"Lathe", b"", b"Floor"], NEVER)].concat();
    for length in 0..=512 {
        let table = &table[..length];
        for before in [true, false] {
            assert_eq!(import(table, before), import_theirs(table), "{length} bytes");
            for number in [0, 1, 2, 3, usize::MAX] {
                let theirs = row_theirs(table, number);
                assert_eq!(row(table, number, before), theirs, "row {number} of {length} bytes");
            }
        }
    }
}
