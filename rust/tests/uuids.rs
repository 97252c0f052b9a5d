//! One UUID, one record: where two records have the same, every call that judges a body refuses it as
//! 9, wherever they stand; and nothing else is refused for it.

mod common;

use common::bodies::{data, end, join, part, record, version, Part};
use common::calls::*;
use common::tables::{login, numbers, EXPIRY, NOW};
use common::traces::{counted, Uuid};
use common::uuids::*;
use peer::body::covered;
use peer::fields::size;
use peer::hmac::hmac;
use peer::random::Random;
use peer::safe::{assemble, Parts, MARKER};
use peer::twofish::Twofish;
use std::collections::HashSet;

/// The body of Version, END and these records.
fn with_records(random: &mut Random, records: &[Vec<Part>]) -> Vec<u8> {
    join(random, &[vec![version(), end()], records.concat()].concat())
}

/// The judgement of the library and of the peer: the number of records, or none for 9.
fn judged(random: &mut Random, body: &[u8]) -> Option<u64> {
    let ours = judge_ours(body, random);
    assert_eq!(ours, judge_theirs(body));
    let [header_fields, records] = numbers(&ours)[..] else { panic!("two numbers") };
    match ours.number {
        0 => assert!(header_fields > 0),
        number => assert_eq!((number, header_fields, records), (9, 0, 0)),
    }
    (ours.number == 0).then_some(records)
}

/// The number of the record that is found, in a body that is well formed.
fn found(random: &mut Random, body: &[u8], uuid: &Uuid) -> Option<u64> {
    let ours = find_ours(body, uuid, random);
    assert_eq!(ours, find_theirs(body, uuid));
    let answer = numbers(&ours);
    assert_eq!(ours.number, 0);
    (answer[0] == 1).then(|| answer[1])
}

/// Accepted with these UUIDs.
fn accepted(random: &mut Random, uuids: &[Uuid]) {
    let body = body_with(random, uuids);
    assert_eq!(judged(random, &body), Some(uuids.len() as u64));
}

/// Refused once the later of two records has the UUID of the earlier.
fn refused(random: &mut Random, uuids: &[Uuid], earlier: usize, later: usize) {
    let mut uuids = uuids.to_vec();
    uuids[later] = uuids[earlier];
    let body = body_with(random, &uuids);
    assert_eq!(judged(random, &body), None, "records {earlier} and {later} of {}", uuids.len());
}

/// So is a search, for that UUID or another.
fn not_searched(random: &mut Random, uuids: &[Uuid], earlier: usize, later: usize) {
    let mut uuids = uuids.to_vec();
    uuids[later] = uuids[earlier];
    let body = body_with(random, &uuids);
    for uuid in [uuids[earlier], uuids[0], uuids[uuids.len() - 1], [0x55; 16]] {
        let ours = find_ours(&body, &uuid, random);
        assert_eq!((ours.number, numbers(&ours)), (9, vec![0; 4]));
    }
}

/// Random, counted from the first byte on, sorted by the last bytes, and with equal last bytes.
fn kinds(random: &mut Random, count: u32) -> [Vec<Uuid>; 4] {
    let any = (0..count).map(|_| random.array()).collect();
    let ends = (0..count).map(|number| {
        let mut uuid = [9; 16];
        uuid[4..8].copy_from_slice(&number.to_be_bytes());
        uuid
    });
    [any, (0..count).map(counted).collect(), (0..count).map(sorted).collect(), ends.collect()]
}

#[test]
fn every_pair() {
    let random = &mut Random(1);
    for uuids in kinds(random, 16) {
        accepted(random, &uuids);
        for later in 1..16 {
            for earlier in 0..later {
                refused(random, &uuids, earlier, later);
                not_searched(random, &uuids, earlier, later);
            }
        }
    }
}

/// Neighbours, first and last, and any pair, at each number of records; a batch holds up to 13,107 of
/// these.
#[test]
fn numbers_of_records() {
    let random = &mut Random(2);
    for count in [2, 3, 255, 256, 257, 2049, 8191, 8192, 8193, 13_106, 13_107, 13_108] {
        for uuids in kinds(random, count) {
            let last = count as usize - 1;
            accepted(random, &uuids);
            refused(random, &uuids, 0, last);
            refused(random, &uuids, 0, 1);
            refused(random, &uuids, last - 1, last);
            let later = 1 + random.below(last);
            let earlier = random.below(later);
            refused(random, &uuids, earlier, later);
        }
    }
}

/// The first and the last of each 65,535 blocks, which are 13,107 records: within them, across
/// neighbours, and across the first and the last.
#[test]
fn records_far_apart() {
    let random = &mut Random(3);
    let edges = [0, 13_106, 13_107, 26_213, 26_214, 39_320, 39_321, 39_999];
    let [any, others @ ..] = kinds(random, 40_000);
    accepted(random, &any);
    for (at, later) in edges.iter().enumerate() {
        edges[..at].iter().for_each(|earlier| refused(random, &any, *earlier, *later));
    }
    for uuids in others {
        accepted(random, &uuids);
        for (earlier, later) in [(0, 39_999), (13_106, 13_107), (13_107, 39_320), (39_998, 39_999)]
        {
            refused(random, &uuids, earlier, later);
        }
    }
}

/// As many as a file holds.
#[test]
fn the_longest_body() {
    let random = &mut Random(4);
    for uuids in kinds(random, MOST_RECORDS) {
        let last = MOST_RECORDS as usize - 1;
        assert_eq!(body_with(random, &uuids).len(), 4_194_032);
        accepted(random, &uuids);
        let later = 1 + random.below(last);
        for (earlier, later) in [(0, last), (0, 1), (last - 1, last), (random.below(later), later)]
        {
            refused(random, &uuids, earlier, later);
        }
    }
}

/// A body may be longer than a file's: the records past 4,194,096 bytes count as well.
#[test]
fn longer_than_a_file() {
    let random = &mut Random(5);
    for uuids in kinds(random, 60_000) {
        accepted(random, &uuids);
        for (earlier, later) in [(0, 59_999), (59_998, 59_999), (52_425, 59_999), (52_424, 52_425)]
        {
            refused(random, &uuids, earlier, later);
        }
        not_searched(random, &uuids, 0, 59_999);
    }
}

/// Two UUIDs that differ in one bit, and all that differ from one in a bit.
#[test]
fn one_bit_off() {
    let random = &mut Random(6);
    for one in [[0; 16], [0xff; 16], counted(7), random.array()] {
        let off = |bit: usize| {
            let mut uuid: Uuid = one;
            uuid[bit / 8] ^= 1 << (bit % 8);
            uuid
        };
        (0..128).for_each(|bit| accepted(random, &[one, off(bit)]));
        let all: Vec<Uuid> = [one].into_iter().chain((0..128).map(off)).collect();
        accepted(random, &all);
        for bit in 0..128 {
            let body = body_with(random, &all);
            assert_eq!(found(random, &body, &off(bit)), Some(bit as u64 + 1));
            refused(random, &all, bit, 128);
        }
    }
}

/// Every value of one byte, with all others equal.
#[test]
fn one_byte_off() {
    let random = &mut Random(7);
    for byte in 0..16 {
        let with = |value: u8| {
            let mut uuid = [0x5a; 16];
            uuid[byte] = value;
            uuid
        };
        let uuids: Vec<Uuid> = (0..=255).map(with).collect();
        accepted(random, &uuids);
        for (earlier, later) in [(0, 255), (254, 255), (0x5a, 0x5b), (0, 128)] {
            refused(random, &uuids, earlier, later);
        }
    }
}

/// Equal first halves, equal last halves, halves exchanged, and each order of the same bytes.
#[test]
fn equal_parts() {
    let random = &mut Random(8);
    let (first, last): ([u8; 8], [u8; 8]) = (random.array(), random.array());
    let mut halves: Vec<[u8; 8]> = (0..300).map(|_| random.array()).collect();
    halves.extend([first, last]);
    let joined = |a: &[u8; 8], b: &[u8; 8]| -> Uuid { [*a, *b].concat().try_into().unwrap() };
    let starts: Vec<Uuid> = halves.iter().map(|half| joined(&first, half)).collect();
    let ends: Vec<Uuid> = halves.iter().map(|half| joined(half, &last)).collect();
    let mut turned: Vec<Uuid> = (0..16).map(|_| core::array::from_fn(|i| i as u8)).collect();
    turned.iter_mut().enumerate().for_each(|(by, uuid)| uuid.rotate_left(by));
    let exchanged = [joined(&first, &last), joined(&last, &first)];
    let same = [joined(&first, &first), joined(&last, &last)];
    for uuids in [&starts[..], &ends, &turned, &[exchanged, same].concat()] {
        accepted(random, uuids);
        refused(random, uuids, 0, uuids.len() - 1);
        refused(random, uuids, 1, 2);
    }
}

/// The header's own UUID is no record's: a record may have it, and is found by it.
#[test]
fn the_headers_uuid() {
    let random = &mut Random(9);
    let (own, other) = ([3; 16], [4; 16]);
    let header = [version(), part(0x01, &own), end()];
    for (records, place) in [(vec![own], Some(0)), (vec![other, own], Some(1)), (vec![other], None)]
    {
        let fields = records.iter().flat_map(|uuid| login(uuid, &[]));
        let body: Vec<Part> = header.iter().cloned().chain(fields).collect();
        let body = join(random, &body);
        assert_eq!(judged(random, &body), Some(records.len() as u64));
        assert_eq!(found(random, &body, &own), place);
        let doubled = [&body[..], &join(random, &login(&records[0], &[]))].concat();
        assert_eq!(judged(random, &doubled), None);
    }
}

/// A UUID's bytes in a field of another type, or in longer data, are no UUID; other fill makes no
/// other UUID.
#[test]
fn the_same_bytes_elsewhere() {
    let random = &mut Random(10);
    let (one, other) = ([3; 16], [4; 16]);
    let decoys: Vec<Part> =
        [0x00, 0x02, 0x05, 0x0d, 0x11, 0xfe].map(|kind| part(kind, &one)).into();
    let longer = [part(0x05, &one.repeat(2)), part(0x0d, &[&one[..], &[0]].concat())];
    let records = [login(&one, &[]), login(&other, &[&decoys[..], &longer].concat())];
    let backwards = [records[1].clone(), records[0].clone()];
    for records in [records, backwards] {
        let body = with_records(random, &records);
        assert_eq!(judged(random, &body), Some(2));
        let doubled = [&records[..], &[login(&one, &[])]].concat();
        let doubled = with_records(random, &doubled);
        assert_eq!(judged(random, &doubled), None);
    }
    // The same 27 bytes, and the same UUID with other fill.
    let record = join(random, &login(&one, &[]));
    let mut filled = record.clone();
    filled[21..32].iter_mut().for_each(|byte| *byte ^= 0xff);
    let start = join(random, &[version(), end()]);
    for second in [&record, &filled] {
        assert_eq!(judged(random, &[&start[..], &record, second].concat()), None);
    }
}

/// Wherever the UUID stands in its record.
#[test]
fn places_in_a_record() {
    let random = &mut Random(11);
    let placed = |uuid: Uuid, at: usize| {
        let mut fields = vec![part(0x03, b"t"), part(0x05, &[b'n'; 40]), part(0x06, b"p"), end()];
        fields.insert(at, part(0x01, &uuid));
        fields
    };
    for (first, second) in (0..4).flat_map(|first| (0..4).map(move |second| (first, second))) {
        for (uuid, records) in [([3; 16], None), ([4; 16], Some(2))] {
            let body = with_records(random, &[placed([3; 16], first), placed(uuid, second)]);
            assert_eq!(judged(random, &body), records);
        }
    }
}

/// Two UUIDs in one record are a fault of that record, equal or not.
#[test]
fn two_in_one_record() {
    let random = &mut Random(12);
    for second in [[3; 16], [4; 16], [5; 16]] {
        let mut records = [login(&[3; 16], &[]), login(&[4; 16], &[])];
        for at in 0..4 {
            records[0].insert(at, part(0x01, &second));
            let body = with_records(random, &records);
            assert_eq!(judged(random, &body), None);
            records[0].remove(at);
        }
        let body = with_records(random, &records);
        assert_eq!(judged(random, &body), Some(2));
    }
}

/// A record with a field before its UUID, which stands that many blocks behind the record's start.
fn noted(uuid: &Uuid, blocks: usize) -> Vec<Part> {
    let length = 16 * blocks - 5;
    assert_eq!(size(length), 16 * blocks);
    let long = Part { kind: 0xfe, data: vec![b'n'; length] };
    vec![long, part(0x01, uuid), part(0x03, b"t"), part(0x06, b"p"), end()]
}

/// The second UUID so many blocks behind the first, at a multiple of 65,536 and beside it, and a
/// third behind both.
#[test]
fn blocks_between() {
    let random = &mut Random(13);
    let [one, two, three] = [[1; 16], [2; 16], [3; 16]];
    let cases = [
        ([one, two, three], Some(3)),
        ([one, one, three], None),
        ([one, two, one], None),
        ([one, two, two], None),
    ];
    let far = (65_533..=65_537).chain(131_069..=131_073);
    for blocks in [255, 256, 257, 32_767, 32_768, 32_769].into_iter().chain(far) {
        for (uuids, records) in cases {
            // A smallest record has five blocks, its UUID first.
            let [first, _, third] = uuids.map(|uuid| noted(&uuid, 1)[1..].to_vec());
            let body = with_records(random, &[first, noted(&uuids[1], blocks - 5), third]);
            assert_eq!(judged(random, &body), records, "{blocks} blocks");
        }
    }
}

/// More than 1 MB before each UUID.
#[test]
fn long_fields_before_the_uuid() {
    let random = &mut Random(14);
    let uuids: Vec<Uuid> = (0..4).map(|_| random.array()).collect();
    for blocks in [65_534, 65_536, 70_000] {
        let mut records: Vec<_> = uuids.iter().map(|uuid| noted(uuid, blocks)).collect();
        let body = with_records(random, &records);
        assert_eq!(judged(random, &body), Some(4));
        for (earlier, later) in [(0, 1), (0, 3), (1, 3), (2, 3)] {
            let kept = records[later][1].clone();
            records[later][1] = records[earlier][1].clone();
            let body = with_records(random, &records);
            assert_eq!(judged(random, &body), None, "records {earlier} and {later}");
            records[later][1] = kept;
        }
    }
}

/// UUIDs of which every look-up starts at one slot: the first, one in the midst, and the last, from
/// which on 2,049 have room.
#[test]
fn chosen_uuids() {
    let random = &mut Random(15);
    for slot in [0, 12_288, 24_575] {
        let uuids: Vec<Uuid> = (0..4100).map(|_| chosen(random, slot)).collect();
        for count in [2049, 2050, 2051, 4098, 4099, 4100] {
            accepted(random, &uuids[..count]);
            refused(random, &uuids[..count], 0, count - 1);
            refused(random, &uuids[..count], count - 2, count - 1);
        }
        for (earlier, later) in [(2047, 2048), (2048, 2049), (2048, 4099), (2049, 4099)] {
            refused(random, &uuids, earlier, later);
        }
    }
}

/// Chosen ones among others, so that the last slot is full while others are free.
#[test]
fn chosen_among_others() {
    let random = &mut Random(16);
    let pick = |random: &mut Random, i: u32| match i % 4 {
        0 => random.array(),
        1 => counted(i),
        _ => chosen(random, 24_575),
    };
    let uuids: Vec<Uuid> = (0..5000).map(|i| pick(random, i)).collect();
    accepted(random, &uuids);
    for _ in 0..20 {
        let later = 1 + random.below(uuids.len() - 1);
        let earlier = random.below(later);
        refused(random, &uuids, earlier, later);
    }
    not_searched(random, &uuids, 0, 4999);
}

/// UUIDs that differ in one byte, or in one half, behind chosen ones that fill so much of the table in
/// one piece that many of them are compared with each other.
#[test]
fn alike_among_chosen() {
    let random = &mut Random(21);
    let one: Uuid = random.array();
    let with = |at: usize, bytes: &[u8]| {
        let mut uuid = one;
        uuid[at..at + bytes.len()].iter_mut().zip(bytes).for_each(|(byte, by)| *byte ^= by);
        uuid
    };
    let mut uuids: Vec<Uuid> = (0..2500).map(|_| chosen(random, 0)).collect();
    uuids.push(one);
    for at in 0..16 {
        uuids.extend((1..=255).map(|by| with(at, &[by])));
    }
    for at in [0, 8] {
        uuids.extend((0..250).map(|_| with(at, &random.array::<8>())));
    }
    let last = uuids.len() - 1;
    accepted(random, &uuids);
    for (earlier, later) in [(0, last), (2500, last), (2500, 2501), (2755, 2756)] {
        refused(random, &uuids, earlier, later);
    }
}

fn parts() -> Parts {
    let passphrase = b"one UUID".to_vec();
    Parts { passphrase, salt: [1; 32], iter: 2048, k: [2; 32], l: [3; 32], iv: [4; 16] }
}

/// The outcomes of judge, find, export, write and read, the last of a file with the right HMAC. Those
/// of a short body are also the peer's, whose cipher is slow.
fn every_call(random: &mut Random, body: &[u8], uuid: &Uuid) -> [Outcome; 5] {
    let parts = parts();
    let file = assemble(&parts, body, &hmac(&parts.l, &covered(body)));
    let output = random.bytes(body.len() / 80 * 256);
    let export = Export { body, now: NOW, output: &output };
    let write = Write { parts: &parts, body, room: body.len() + 216 };
    let (passphrase, room) = (&parts.passphrase[..], body.len() + 16);
    let read = Read { file: &file, passphrase, ceiling: 2048, room };
    let ours = [
        judge_ours(body, random),
        find_ours(body, uuid, random),
        export.ours(random),
        write.ours(random),
        read.ours(random),
    ];
    assert!(ours[2].number == 0 || ours[2].memory == output, "a refused output is what it was");
    if body.len() < 100_000 {
        let found = find_theirs(body, uuid);
        let theirs = [judge_theirs(body), found, export.theirs(), write.theirs(), read.theirs()];
        assert_eq!(ours, theirs);
    }
    ours
}

/// Judging, finding, exporting, writing and reading refuse as 9, and leave what they leave for 9.
fn all_refuse(random: &mut Random, uuids: &[Uuid], uuid: &Uuid) {
    let body = body_with(random, uuids);
    let [judged, found, exported, written, read] = every_call(random, &body, uuid);
    assert_eq!((judged.number, judged.answer), (9, vec![0; 16]));
    assert_eq!((found.number, found.answer), (9, vec![0; 32]));
    assert_eq!((exported.number, exported.answer), (9, vec![0; 24]));
    assert_eq!(written.number, 9);
    assert!(written.memory.iter().all(|byte| *byte == 0), "a refused output is zero");
    let work = [2050, 4 + body.len() as u64 / 16].map(u64::to_le_bytes).concat();
    assert_eq!((read.number, read.answer), (9, [vec![0; 80], work].concat()));
    assert!(read.memory.iter().all(|byte| *byte == 0), "a refused workspace is zero");
}

#[test]
fn every_call_refuses() {
    let random = &mut Random(17);
    for count in [2, 3, 200, 14_000, MOST_RECORDS] {
        let mut uuids: Vec<Uuid> = (0..count).map(|_| random.array()).collect();
        let body = body_with(random, &uuids);
        assert_eq!(every_call(random, &body, &uuids[1]).map(|call| call.number), [0; 5]);
        let last = uuids.len() - 1;
        uuids[last] = uuids[0];
        all_refuse(random, &uuids, &uuids[0]);
        if count < 1000 {
            all_refuse(random, &uuids, &uuids[1]);
            all_refuse(random, &uuids, &[0; 16]);
        }
    }
}

/// The order of refusals is what it was: 1, 2, 3 and 5 before, 10 and 18 behind.
#[test]
fn by_the_order() {
    let random = &mut Random(18);
    let doubled = body_with(random, &[[1; 16], [2; 16], [1; 16]]);
    let long = [&doubled[..], &[0; 8]].concat();
    let (whole, few) = (parts(), Parts { iter: 2047, ..parts() });
    let phrase = Parts { passphrase: vec![b'p'; 1025], iter: 2047, ..parts() };
    // Its first encrypted block is the marker.
    let wanted = Twofish::new(&whole.k).decrypt(MARKER);
    let iv = core::array::from_fn(|i| wanted[i] ^ doubled[i]);
    let marked = Parts { iv, ..parts() };
    let (room, single) = (doubled.len() + 200, &doubled[..doubled.len() - 80]);
    let cases: [(&Parts, &[u8], usize, u32); 7] = [
        (&phrase, &long, 0, 1),
        (&phrase, &doubled, 0, 2),
        (&few, &doubled, room - 1, 3),
        (&few, &doubled, room, 5),
        (&whole, &doubled, room, 9),
        (&marked, &doubled, room, 9),
        (&marked, single, room, 10),
    ];
    for (parts, body, room, number) in cases {
        let case = Write { parts, body, room };
        let ours = case.ours(random);
        assert_eq!(ours, case.theirs());
        assert_eq!(ours.number, number);
    }
    let at_fault = login(&[1; 16], &[part(EXPIRY, &[1, 2, 3])]);
    for (second, number, told) in [([1; 16], 9, [0; 3]), ([2; 16], 18, [0, 0, EXPIRY.into()])] {
        let body = with_records(random, &[at_fault.clone(), login(&second, &[])]);
        for room in [0, 511, 512] {
            let output = random.bytes(room);
            let case = Export { body: &body, now: NOW, output: &output };
            let ours = case.ours(random);
            assert_eq!(ours, case.theirs());
            assert_eq!((ours.number, numbers(&ours)), (number, told.to_vec()));
        }
    }
}

/// A body of up to nine records with any fields, their UUIDs and the header's from a few.
fn of_few(random: &mut Random) -> (Vec<u8>, Vec<Uuid>) {
    let few: Vec<Uuid> = (0..random.pick(&[3, 9, 20, 40]))
        .map(|i| if random.one_in(2) { counted(i) } else { sorted(i) })
        .collect();
    let mut parts = vec![version()];
    if random.one_in(2) {
        parts.push(part(0x01, &random.pick(&few)));
    }
    parts.extend([Part { kind: 0x0c, data: data(random) }, end()]);
    for _ in 0..random.below(10) {
        let uuid = random.pick(&few);
        parts.extend(record(random, &uuid));
    }
    (join(random, &parts), few)
}

/// Judge, find and export on random bodies of few UUIDs, of which about half have a double.
#[test]
fn few_uuids() {
    let (random, mut met) = (&mut Random(19), Met::default());
    while met.cases() < 5000 {
        let (body, few) = of_few(random);
        let ours = judge_ours(&body, random);
        met.same(ours, judge_theirs(&body), body.len());
        let uuid = random.pick(&few);
        assert_eq!(find_ours(&body, &uuid, random), find_theirs(&body, &uuid));
        let rows = random.below(10);
        let output = random.bytes(256 * rows);
        let case = Export { body: &body, now: NOW, output: &output };
        assert_eq!(case.ours(random), case.theirs());
    }
    met.each_of(&[0, 9], 2000);
}

/// Write and read likewise.
#[test]
fn files_of_few_uuids() {
    let (random, mut met) = (&mut Random(20), Met::default());
    while met.cases() < 250 {
        let (body, few) = of_few(random);
        let uuid = random.pick(&few);
        let [judged, _, _, written, read] = every_call(random, &body, &uuid);
        assert_eq!((written.number, read.number), (judged.number, judged.number));
        met.same(judged, judge_theirs(&body), body.len());
    }
    met.each_of(&[0, 9], 100);
}

/// The number of the first UUID that an earlier one is the same as.
fn again(uuids: &[Uuid]) -> Option<usize> {
    let mut met = HashSet::new();
    uuids.iter().position(|uuid| !met.insert(uuid))
}

/// The layer below judging tells which record it is: of none to four doubles the first, from the
/// first record on and from any other.
#[test]
fn the_first_is_told() {
    let random = &mut Random(22);
    let slot = |random: &mut Random| (0..4100).map(|_| chosen(random, 24_575)).collect();
    let mut lists: Vec<Vec<Uuid>> = vec![vec![], slot(random)];
    for count in [1, 2, 3, 200, 13_106, 13_107, 13_108, 40_000, MOST_RECORDS] {
        lists.extend(kinds(random, count));
    }
    for mut uuids in lists {
        for _ in 0..5 {
            let (body, from) = (body_with(random, &uuids), random.below(uuids.len() + 1));
            assert_eq!(probe::repeated(&body, 32), again(&uuids));
            assert_eq!(probe::repeated(&body, 32 + 80 * from), again(&uuids[from..]));
            if !uuids.is_empty() {
                let (one, other) = (random.below(uuids.len()), random.below(uuids.len()));
                uuids[one] = uuids[other];
            }
        }
    }
}

/// The UUIDs that stand in any bytes from a place on, as far as the fields go.
fn standing(body: &[u8], mut place: usize) -> Vec<Uuid> {
    let mut uuids = vec![];
    while let Some(head) = body.get(place..).and_then(|rest| rest.first_chunk::<5>()) {
        let [length @ .., kind] = *head;
        let length = u32::from_le_bytes(length) as usize;
        if body.len() - place < size(length) {
            break;
        }
        if kind == 0x01 {
            uuids.extend(Uuid::try_from(&body[place + 5..place + 5 + length]));
        }
        place += size(length);
    }
    uuids
}

/// So it is of any bytes and any place: bodies of few UUIDs, cut, with a byte changed, and from a place
/// at which no field starts.
#[test]
fn the_first_is_told_of_any_bytes() {
    let (random, mut told) = (&mut Random(23), 0);
    for _ in 0..20_000 {
        let (mut body, _) = of_few(random);
        if random.one_in(2) {
            body.truncate(random.below(body.len() + 1));
        }
        if random.one_in(2) && !body.is_empty() {
            let at = random.below(body.len());
            body[at] = random.number() as u8;
        }
        let (any, beyond) = (random.below(body.len() + 1), body.len() + random.below(40));
        let from = random.pick(&[0, 16, 32, any, beyond, usize::MAX]);
        let ours = probe::repeated(&body, from);
        assert_eq!(ours, again(&standing(&body, from)));
        told += usize::from(ours.is_some());
    }
    assert!(told > 2000, "{told} with a repetition");
}
