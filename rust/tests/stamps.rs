//! Times of the header in eight hex digits, as Password Safe stored them before 3.09: which
//! bytes are digits, what each counts, which types and which lengths. Each with the number that it
//! is made for, and against the independent implementation.

mod common;

use common::bodies::{digits, end, join, part, version, HEX_DIGITS, NO_DIGITS};
use common::calls::{judge_ours, judge_theirs, Outcome, Read, Write};
use common::walks::{answer, told};
use peer::fields::fill_needed;
use peer::random::Random;
use peer::safe::Parts;
use talcfeather::{fields, walk, Cursor, Uuid, Value};

/// The times of the last save and of the last change of the master passphrase.
const STAMPS: [u8; 2] = [0x04, 0x13];

const EMPTY: u64 = 0;
const TIME: u64 = 3;
const TEXT: u64 = 6;
const MISSHAPEN: u64 = 8;
const OPAQUE: u64 = 9;

/// Both times of the header are told as that kind with that value, whatever the fill is.
fn are(random: &mut Random, data: &[u8], kind: u64, value: u64) {
    for stamp in STAMPS {
        let fill = random.bytes(fill_needed(data.len()));
        let told = told(random, stamp, false, data, &fill);
        let start = data[..data.len().min(20)].escape_ascii();
        assert_eq!(told, [kind, value, 0], "type {stamp:02x}, {} bytes, {start}", data.len());
    }
}

#[test]
fn digits_of_either_case() {
    let random = &mut Random(1);
    let cases: [(&[u8; 8], u64); 16] = [
        (b"4A5B6C7D", 1_247_505_533),
        (b"4a5b6c7d", 1_247_505_533),
        (b"4A5b6C7d", 1_247_505_533),
        (b"D7C6B5A4", 3_620_124_068),
        (b"01234567", 19_088_743),
        (b"76543210", 1_985_229_328),
        (b"89abcdef", 2_309_737_967),
        (b"89ABCDEF", 2_309_737_967),
        (b"FeDcBa98", 4_275_878_552),
        (b"41424344", 1_094_861_636),
        (b"7fffffff", 2_147_483_647),
        (b"80000000", 2_147_483_648),
        (b"00000000", 0),
        (b"ffffffff", 4_294_967_295),
        (b"FFFFFFFF", 4_294_967_295),
        (b"fFFffFfF", 4_294_967_295),
    ];
    for (digits, seconds) in cases {
        are(random, digits, TIME, seconds);
    }
}

/// What a digit counts at each place, the highest first.
const WEIGHTS: [u64; 8] = [268_435_456, 16_777_216, 1_048_576, 65_536, 4_096, 256, 16, 1];

/// What the byte counts as a digit, if it is one.
fn digit(byte: u8) -> Option<u64> {
    let at = HEX_DIGITS.iter().position(|digit| *digit == byte)? as u64;
    Some(if at < 16 { at } else { at - 6 })
}

fn seconds(data: &[u8; 8]) -> Option<u64> {
    data.iter().zip(WEIGHTS).map(|(byte, weight)| Some(weight * digit(*byte)?)).sum()
}

/// At each place 22 bytes are digits, and count there by their weight; the other 234 are none.
#[test]
fn every_byte_at_every_place() {
    let random = &mut Random(2);
    for others in [b"00000000", b"ffffffff", b"FFFFFFFF", b"4A5b6c7D"] {
        for place in 0..8 {
            let mut times = 0;
            for byte in 0..=255 {
                let mut data = *others;
                data[place] = byte;
                let seconds = seconds(&data);
                times += u32::from(seconds.is_some());
                are(random, &data, seconds.map_or(MISSHAPEN, |_| TIME), seconds.unwrap_or(0));
            }
            assert_eq!(times, 22);
        }
    }
}

#[test]
fn the_highest_digit_comes_first() {
    let random = &mut Random(3);
    for (place, weight) in WEIGHTS.into_iter().enumerate() {
        for (one, count) in [(b'1', 1), (b'7', 7), (b'9', 9), (b'a', 10), (b'F', 15)] {
            let mut digits = [b'0'; 8];
            digits[place] = one;
            are(random, &digits, TIME, count * weight);
        }
    }
}

/// Signs, prefixes, spaces, separators, letters behind F, digits of other scripts, and eight bytes
/// that are a number by themselves.
#[test]
fn what_is_nearly_digits() {
    let random = &mut Random(4);
    let near: [&[u8]; 22] = [
        b"+4A5B6C7",
        b"-4A5B6C7",
        b"+0000000",
        b"-0000001",
        b" 4A5B6C7",
        b"4A5B6C7 ",
        b"0x4A5B6C",
        b"0X4A5B6C",
        b"x4A5B6C7",
        b"4A5B6C7h",
        b"4A5B6C7\0",
        b"4A5B6C7\n",
        b"\n4A5B6C7",
        b"4A5B_6C7",
        b"4A5B 6C7",
        b"4A5B6C.7",
        b"gggggggg",
        b"        ",
        b"\0\0\0\0\0\0\0\0",
        b"\x7d\x6c\x5b\x4a\0\0\0\0",
        "١٢٣٤".as_bytes(),
        "0１2３".as_bytes(),
    ];
    for data in near {
        are(random, data, MISSHAPEN, 0);
    }
    for (place, byte) in (0..8).flat_map(|place| NO_DIGITS.map(|byte| (place, byte))) {
        let mut data = *b"4A5B6C7D";
        data[place] = byte;
        are(random, &data, MISSHAPEN, 0);
    }
}

/// Of lengths to 20, and of some past what one byte, two and three can count, only 4 and 8 are a time.
#[test]
fn every_length() {
    let random = &mut Random(5);
    let digits = b"4A5B6C7D4A5B6C7D4A5B";
    for length in 0..=20 {
        let (as_digits, as_ones) = match length {
            0 => ((EMPTY, 0), (EMPTY, 0)),
            4 => ((TIME, 1_110_786_356), (TIME, 16_843_009)),
            8 => ((TIME, 1_247_505_533), (MISSHAPEN, 0)),
            _ => ((MISSHAPEN, 0), (MISSHAPEN, 0)),
        };
        are(random, &digits[..length], as_digits.0, as_digits.1);
        are(random, &[1; 20][..length], as_ones.0, as_ones.1);
    }
    for more in [1 << 8, 1 << 16, 1 << 24] {
        for length in [more, more + 4, more + 8] {
            are(random, &vec![b'0'; length], MISSHAPEN, 0);
        }
    }
}

/// Four bytes are stored lowest first, also where they look like digits.
#[test]
fn four_digits_are_bytes() {
    let random = &mut Random(6);
    let cases: [(&[u8; 4], u64); 6] = [
        (b"0000", 808_464_432),
        (b"ffff", 1_717_986_918),
        (b"FFFF", 1_179_010_630),
        (b"4A5B", 1_110_786_356),
        (b"B5A4", 876_688_706),
        (b"9876", 909_588_537),
    ];
    for (data, seconds) in cases {
        are(random, data, TIME, seconds);
    }
}

/// Digits behind the data don't make them longer.
#[test]
fn digits_in_the_fill_do_not_count() {
    let random = &mut Random(7);
    let cases: [(&[u8], &[u8], [u64; 3]); 6] = [
        (b"", b"4A5B6C7D4A5", [EMPTY, 0, 0]),
        (b"4", b"A5B6C7D4A5", [MISSHAPEN, 0, 0]),
        (b"4A5B", b"6C7D4A5", [TIME, 1_110_786_356, 0]),
        (b"4A5B6C7", b"D4A5", [MISSHAPEN, 0, 0]),
        (b"4A5B6C7D", b"4A5", [TIME, 1_247_505_533, 0]),
        (b"4A5B6C7D4", b"A5", [MISSHAPEN, 0, 0]),
    ];
    for (data, fill, expected) in cases {
        for kind in STAMPS {
            assert_eq!(told(random, kind, false, data, fill), expected, "{}", data.escape_ascii());
        }
    }
}

/// What eight hex digits are in each type, from 00 on: t a time, M Misshapen, x a text, - Opaque.
/// No record has such a time.
const HEADER: &[u8] = b"MMxxtxxxxxxx---xxx-t";
const RECORD: &[u8] = b"-MxxxxxMMMM-MxxxxMxMxMxMxM--xxxxx";

#[test]
fn every_type() {
    let random = &mut Random(8);
    for (kind, in_record) in (0..0xff).flat_map(|kind| [false, true].map(|r| (kind, r))) {
        let sorts = if in_record { RECORD } else { HEADER };
        let sort = sorts.get(usize::from(kind)).copied().unwrap_or(b'-');
        for (data, time) in [(b"4A5b6c7D", [TIME, 1_247_505_533]), (b"4A5B6C7G", [MISSHAPEN, 0])] {
            let [expected, value] = match sort {
                b't' => time,
                b'M' => [MISSHAPEN, 0],
                b'x' => [TEXT, 0],
                _ => [OPAQUE, 0],
            };
            let told = told(random, kind, in_record, data, b"123");
            assert_eq!(told, [expected, value, 0], "type {kind:02x}, {in_record}");
        }
    }
}

/// Next place, type, place: as for the same time in four bytes.
#[test]
fn the_other_numbers_of_the_answer() {
    let random = &mut Random(9);
    for (place, kind) in [0, 16, 48, 4096].into_iter().flat_map(|p| STAMPS.map(|k| (p, k))) {
        let cases: [(&[u8], [u64; 4]); 3] = [
            (b"\x7d\x6c\x5b\x4a", [4, TIME, 1_247_505_533, 0]),
            (b"4A5B6C7D", [8, TIME, 1_247_505_533, 0]),
            (b"4A5B6C7G", [8, MISSHAPEN, 0, 0]),
        ];
        for (data, last) in cases {
            let fill = random.bytes(fill_needed(data.len()));
            let answer = answer(random, place, kind, false, data, &fill);
            let at = place as u64;
            assert_eq!(answer[..5], [1, at + 16, 0, kind.into(), at]);
            assert_eq!(answer[5..], last);
        }
    }
}

/// A time of eight bytes, printed in hex, is what stands there; else one of them is no digit.
#[test]
fn any_stamps() {
    let random = &mut Random(10);
    let mut met = [0; 3];
    while met.iter().sum::<u32>() < 100_000 {
        let length = if random.one_in(5) { random.below(21) } else { 8 };
        let data = if random.one_in(9) { random.bytes(length) } else { digits(random, length) };
        let (kind, in_record) = (random.pick(&STAMPS), random.one_in(9));
        let fill = random.bytes(fill_needed(length));
        let [value, time, _] = told(random, kind, in_record, &data, &fill);
        let sort = match (in_record, length) {
            (false, 8) if value == TIME => {
                assert_eq!(format!("{time:08x}").as_bytes(), data.to_ascii_lowercase());
                0
            }
            (false, 8) => {
                assert!(data.iter().any(|byte| !HEX_DIGITS.contains(byte)));
                1
            }
            _ => 2,
        };
        met[sort] += 1;
    }
    assert!(met.iter().all(|count| *count > 10_000), "{met:?}");
}

/// Version, both stamps, and a login that has the same bytes as user name, creation time and
/// double-click action.
fn body(random: &mut Random, saved: &[u8], changed: &[u8]) -> Vec<u8> {
    let header = [version(), part(0x04, saved), part(0x13, changed), end()];
    let login = [
        part(0x01, &[7; 16]),
        part(0x03, b"Lathe"),
        part(0x04, saved),
        part(0x06, b"p"),
        part(0x07, saved),
        part(0x13, changed),
        end(),
    ];
    join(random, &[&header[..], &login].concat())
}

/// The library's reading of the peer's safe around that body; read, it is written again as it was.
fn read(random: &mut Random, body: &[u8]) -> Outcome {
    let passphrase = b"since 2009".to_vec();
    let parts =
        Parts { passphrase, salt: [1; 32], iter: 2048, k: [2; 32], l: [3; 32], iv: [4; 16] };
    let file = peer::safe::write(&parts, body, body.len() + 200).unwrap();
    let passphrase = &parts.passphrase;
    let case = Read { file: &file, passphrase, ceiling: 2048, room: body.len() };
    let ours = case.ours(random);
    assert_eq!(ours, case.theirs());
    assert_eq!((ours.number, &ours.answer[..64]), (0, &[parts.k, parts.l].concat()[..]));
    let again = Write { parts: &parts, body: &ours.memory, room: file.len() }.ours(random);
    assert_eq!(again.number, 0);
    assert!(again.memory == file, "written again, byte for byte");
    ours
}

fn values(body: &[u8]) -> Vec<Value<'_>> {
    let (mut at, mut values) = (Cursor::START, Vec::new());
    while let Some((field, next)) = walk(body, at).unwrap() {
        values.push(field.value);
        at = next;
    }
    assert!(fields(body).map(|field| field.unwrap().value).eq(values.iter().copied()));
    values
}

#[test]
fn a_safe_with_old_stamps() {
    let random = &mut Random(11);
    let body = body(random, b"4A5B6C7D", b"4c3b2a19");
    let opened = read(random, &body);
    assert!(opened.memory == body);
    let header = [Value::Number(0x030e), Value::Time(1_247_505_533), Value::Time(1_278_945_817)];
    let texts = ["Lathe", "4A5B6C7D", "p"].map(Value::Text);
    let uuid = [Value::Uuid(Uuid([7; 16]))];
    let login = [&uuid[..], &texts, &[Value::Misshapen; 2]].concat();
    let ends = [Value::End];
    assert_eq!(values(&opened.memory), [&header[..], &ends, &login, &ends].concat());
}

/// Digits or not, a safe is accepted as it was; and a second stamp of a type is refused as it was.
#[test]
fn acceptance_does_not_go_by_stamps() {
    let random = &mut Random(12);
    let stamps: [&[u8]; 8] = [
        b"",
        b"\x7d\x6c\x5b\x4a",
        b"4A5B6C7D",
        b"4A5B6C7G",
        b"+4A5B6C7",
        &[0; 8],
        b"4A5",
        &[9; 40],
    ];
    for (saved, changed) in stamps.into_iter().flat_map(|s| stamps.map(|c| (s, c))) {
        let body = body(random, saved, changed);
        let opened = read(random, &body);
        let counts = [3u64, 1].map(u64::to_le_bytes).concat();
        assert_eq!(opened.answer[64..80], counts);
        for kind in STAMPS {
            let again = join(random, &[version(), part(kind, saved), part(kind, changed), end()]);
            let judged = judge_ours(&again, random);
            assert_eq!((judged.number, &judged), (9, &judge_theirs(&again)));
        }
    }
}
