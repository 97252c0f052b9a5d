//! Find, and how many fields it visits: the cases on each side of a line, with their numbers
//! written out, and bodies that differ behind the field that decides.

mod common;

use common::bodies::{data, end, good, join, part, record, version, Part, UUID as SOUGHT};
use common::calls::*;
use common::tables::numbers;
use common::traces::{counted, shuffle};
use peer::fields::END;
use peer::random::Random;
use talcfeather::{find, Refusal, Uuid};

const OTHER: [u8; 16] = [8; 16];

/// The smallest record with that UUID: four fields, five blocks.
fn smallest(uuid: &[u8; 16]) -> Vec<Part> {
    vec![part(0x01, uuid), part(0x03, b"t"), part(0x06, b"p"), end()]
}

/// That many of the smallest records, each with a UUID of its own, and none with the one sought.
fn others(count: u32) -> Vec<Vec<Part>> {
    (0..count).map(|number| smallest(&counted(number))).collect()
}

/// Version and END, then these records.
fn with_records(records: &[Vec<Part>]) -> Vec<Part> {
    [vec![version(), end()], records.concat()].concat()
}

/// The library's number and answer, which are also the peer's and the wrapper's.
fn answered(random: &mut Random, body: &[u8]) -> (u32, [u64; 4]) {
    let ours = find_ours(body, &SOUGHT, random);
    assert_eq!(ours, find_theirs(body, &SOUGHT));
    let answer: [u64; 4] = numbers(&ours).try_into().unwrap();
    let [found, record, place, visited] = answer;
    assert!(visited <= body.len() as u64 / 16, "{visited} fields in {} bytes", body.len());
    let found = (found == 1).then_some((record, place as usize));
    let told = if ours.number != 0 { Err(Refusal::Body) } else { Ok((found, visited)) };
    let place = |record: talcfeather::Record| (record.number, record.place);
    let search = find(body, Uuid(SOUGHT)).map(|search| (search.found.map(place), search.visited));
    assert_eq!(search, told);
    (ours.number, answer)
}

/// The answer on a well-formed body of these fields.
fn finds(random: &mut Random, parts: &[Part]) -> [u64; 4] {
    let body = join(random, parts);
    let (number, answer) = answered(random, &body);
    assert_eq!(number, 0);
    answer
}

#[test]
fn version_and_end_alone() {
    assert_eq!(finds(&mut Random(1), &[version(), end()]), [0, 0, 0, 2]);
}

#[test]
fn fields_of_the_header() {
    let random = &mut Random(2);
    let more = [
        part(0x09, b"Floor 2"),
        part(0x0a, &[b'n'; 100]),
        part(0x0c, &[]),
        part(0x0c, &[1; 12]),
        part(0xfe, &[2; 27]),
    ];
    let rows = [(32, 2, 3, 6), (48, 3, 4, 7), (160, 4, 5, 8), (176, 5, 6, 9), (208, 6, 7, 10)];
    for (count, (place, bare, found, none)) in rows.into_iter().enumerate() {
        let header = [&[version()], &more[..count], &[end()]].concat();
        assert_eq!(finds(random, &header), [0, 0, 0, bare]);
        let parts = [&header[..], &smallest(&SOUGHT)].concat();
        assert_eq!(finds(random, &parts), [1, 0, place, found]);
        let parts = [&header[..], &smallest(&OTHER)].concat();
        assert_eq!(finds(random, &parts), [0, 0, 0, none]);
    }
}

/// First, in the midst and last: what follows the UUID in its record is not counted.
#[test]
fn the_uuid_at_each_place_of_its_record() {
    let random = &mut Random(3);
    let others =
        [part(0x03, b"t"), part(0x05, &[b'n'; 500]), part(0x06, b"p"), part(0x02, b""), end()];
    for (at, visited) in [(0, 3), (1, 4), (2, 5), (3, 6), (4, 7)] {
        let mut record = others.to_vec();
        record.insert(at, part(0x01, &SOUGHT));
        assert_eq!(finds(random, &with_records(&[record])), [1, 0, 32, visited]);
    }
}

#[test]
fn first_middle_and_last_record() {
    let random = &mut Random(4);
    for (number, place, visited) in [(0, 32, 3), (1, 112, 7), (2, 192, 11), (3, 272, 15)] {
        let mut records = others(4);
        records[number] = smallest(&SOUGHT);
        let found = finds(random, &with_records(&records));
        assert_eq!(found, [1, number as u64, place, visited]);
    }
    for (count, visited) in [(1, 6), (2, 10), (3, 14), (4, 18)] {
        let none = finds(random, &with_records(&others(count)));
        assert_eq!(none, [0, 0, 0, visited]);
    }
}

/// Two records with that UUID, wherever it stands in them, are no well-formed body: the first no
/// longer decides. With another UUID in its place each of them is found.
#[test]
fn the_only_match() {
    let random = &mut Random(5);
    let (early, other) = (smallest(&SOUGHT), smallest(&OTHER));
    let mut late = early.clone();
    late[..3].rotate_left(1);
    let cases = [
        (vec![&early, &early], [1, 0, 32, 3], [1, 1, 112, 7]),
        (vec![&late, &early], [1, 0, 32, 5], [1, 1, 112, 7]),
        (vec![&early, &late], [1, 0, 32, 3], [1, 1, 112, 9]),
        (vec![&other, &late, &early], [1, 1, 112, 9], [1, 2, 192, 11]),
        (vec![&late, &other, &late], [1, 0, 32, 5], [1, 2, 192, 13]),
        (vec![&early, &other, &early], [1, 0, 32, 3], [1, 2, 192, 11]),
    ];
    for (records, first, last) in cases {
        let records: Vec<_> = records.into_iter().cloned().collect();
        let body = join(random, &with_records(&records));
        assert_eq!(answered(random, &body), (9, [0; 4]));
        let sought = |number: &usize| records[*number].iter().any(|part| part.data == SOUGHT);
        let both: Vec<usize> = (0..records.len()).filter(sought).collect();
        for (changed, answer) in [(1, first), (0, last)] {
            let mut records = records.clone();
            let uuid = records[both[changed]].iter_mut().find(|part| part.kind == 0x01).unwrap();
            uuid.data[15] ^= 1;
            assert_eq!(finds(random, &with_records(&records)), answer);
        }
    }
}

/// The same bytes as the header's UUID, in fields of other types, and in longer and shorter data.
#[test]
fn the_same_bytes_elsewhere() {
    let random = &mut Random(6);
    let header = [version(), part(0x01, &SOUGHT), end()];
    assert_eq!(finds(random, &header), [0, 0, 0, 3]);
    let parts = [&header[..], &smallest(&OTHER)].concat();
    assert_eq!(finds(random, &parts), [0, 0, 0, 7]);
    let parts = [&parts[..], &smallest(&SOUGHT)].concat();
    assert_eq!(finds(random, &parts), [1, 1, 144, 8]);
    let kinds = [0x00, 0x02, 0x05, 0x0f, 0x11, 0xfe];
    let decoys: Vec<Part> = kinds.iter().map(|kind| part(*kind, &SOUGHT)).collect();
    let twice = SOUGHT.repeat(2);
    let longer = [part(0x05, &twice), part(0x0d, &twice[..15]), part(0x0d, &twice[..17])];
    let other = [&decoys[..], &longer, &smallest(&OTHER)].concat();
    let records = [other, [decoys, smallest(&SOUGHT)].concat()];
    assert_eq!(finds(random, &with_records(&records[..1])), [0, 0, 0, 15]);
    assert_eq!(finds(random, &with_records(&records)), [1, 1, 416, 22]);
}

#[test]
fn one_bit_off() {
    let random = &mut Random(7);
    for bit in 0..128 {
        let mut uuid = SOUGHT;
        uuid[bit / 8] ^= 1 << (bit % 8);
        let records = [smallest(&uuid), smallest(&SOUGHT)];
        assert_eq!(finds(random, &with_records(&records[..1])), [0, 0, 0, 6], "bit {bit}");
        assert_eq!(finds(random, &with_records(&records)), [1, 1, 112, 7], "bit {bit}");
    }
}

/// Its bytes the other way round, its halves exchanged, and the bytes of each half the other way
/// round.
#[test]
fn other_orders() {
    let random = &mut Random(14);
    let (mut back, mut halves, mut each) = (SOUGHT, SOUGHT, SOUGHT);
    back.reverse();
    halves.rotate_left(8);
    each[..8].reverse();
    each[8..].reverse();
    for uuid in [back, halves, each] {
        assert_eq!(finds(random, &with_records(&[smallest(&uuid)])), [0, 0, 0, 6]);
    }
}

/// No record has fewer fields than these, so no body of this length has more ENDs.
#[test]
fn many_ends() {
    let random = &mut Random(8);
    for (count, place, visited) in [(1000, 80_032, 4003), (70_000, 5_600_032, 280_003)] {
        let mut records = others(count);
        assert_eq!(finds(random, &with_records(&records)), [0, 0, 0, visited - 1]);
        records.push(smallest(&SOUGHT));
        let found = finds(random, &with_records(&records));
        assert_eq!(found, [1, count.into(), place, visited]);
    }
}

/// As many fields as blocks, up to the longest body and past it. A UUID takes two blocks, so such a
/// body has no records, and with one record the count is one less.
#[test]
fn a_block_a_field() {
    let random = &mut Random(9);
    for blocks in [2, 3, 16, 255, 256, 257, 65_535, 65_536, 65_537, 262_131, 300_000] {
        let mut parts = vec![part(0x0c, b"one block.."); blocks as usize];
        parts[0] = version();
        parts[blocks as usize - 1] = end();
        let body = join(random, &parts);
        assert_eq!(body.len() as u64, 16 * blocks);
        assert_eq!(answered(random, &body), (0, [0, 0, 0, blocks]));
        let found = [&body[..], &join(random, &smallest(&SOUGHT))].concat();
        assert_eq!(answered(random, &found), (0, [1, 0, 16 * blocks, blocks + 1]));
        let body = [body, join(random, &smallest(&OTHER))].concat();
        assert_eq!(answered(random, &body), (0, [0, 0, 0, body.len() as u64 / 16 - 1]));
    }
}

#[test]
fn long_fields() {
    let random = &mut Random(10);
    for (length, place) in [(12, 144), (65_536, 65_664), (2_000_000, 2_000_128)] {
        let long = |kind: u8| Part { kind, data: vec![b'n'; length] };
        assert_eq!(finds(random, &[version(), long(0x0a), end()]), [0, 0, 0, 3]);
        let records = [&OTHER, &SOUGHT].map(|uuid| [vec![long(0x05)], smallest(uuid)].concat());
        assert_eq!(finds(random, &with_records(&records[..1])), [0, 0, 0, 7]);
        assert_eq!(finds(random, &with_records(&records[1..])), [1, 0, 32, 4]);
        assert_eq!(finds(random, &with_records(&records)), [1, 1, place, 9]);
    }
}

/// The fields of bodies that are not well formed, with the UUID before the fault or after it.
fn faults() -> Vec<Vec<Part>> {
    let whole = with_records(&[smallest(&SOUGHT), smallest(&OTHER)]);
    let with = |at: usize, part: Part| {
        let mut parts = whole.clone();
        parts[at] = part;
        parts
    };
    let more = |at: usize, part: Part| {
        let mut parts = whole.clone();
        parts.insert(at, part);
        parts
    };
    vec![
        whole[..9].to_vec(),
        more(10, end()),
        more(10, part(0x05, b"")),
        more(9, part(0x01, &OTHER)),
        more(9, part(0x01, &SOUGHT)),
        more(3, part(0x01, &SOUGHT)),
        more(5, part(0x06, b"p")),
        with(4, part(0x05, b"no password")),
        with(7, part(0x05, b"no title")),
        with(7, part(0x03, b"")),
        with(6, part(0x01, &[8; 15])),
        with(6, part(0x01, &[8; 17])),
        with(6, part(0x01, &SOUGHT)),
        with(6, part(0x02, &OTHER)),
        with(0, part(0x00, &[0x0e, 0x04])),
        with(0, part(0x00, &[0x0e, 0x03, 0])),
        with(0, part(0x09, b"no Version")),
        more(1, part(0x00, &[0x0e, 0x03])),
        more(0, end()),
        vec![end()],
    ]
}

/// Nothing is told of what stands before the fault.
#[test]
fn bodies_that_are_not_well_formed() {
    let random = &mut Random(11);
    for (case, parts) in faults().iter().enumerate() {
        let body = join(random, parts);
        assert_eq!(answered(random, &body), (9, [0; 4]), "case {case}");
    }
    let whole = join(random, &with_records(&[smallest(&SOUGHT), smallest(&OTHER)]));
    for (at, byte) in [(176, 1), (179, 0xff), (160, 12), (163, 0x80), (96, 1), (16, 1), (0, 12)] {
        let mut body = whole.clone();
        body[at] = byte;
        assert_eq!(answered(random, &body), (9, [0; 4]), "byte {at}");
    }
}

/// Every start of a body, the empty one too: it ends at an END, or is refused.
#[test]
fn starts_of_a_body() {
    let random = &mut Random(12);
    let whole = join(random, &with_records(&[smallest(&OTHER), smallest(&SOUGHT)]));
    let longer = [&whole[..], &[0; 16]].concat();
    for length in 0..=longer.len() {
        let expected = match length {
            32 => (0, [0, 0, 0, 2]),
            112 => (0, [0, 0, 0, 6]),
            192 => (0, [1, 1, 112, 7]),
            _ => (9, [0; 4]),
        };
        assert_eq!(answered(random, &longer[..length]), expected, "{length} bytes");
    }
}

/// Which field of a record is the UUID sought.
fn deciding(parts: &[Part]) -> Option<usize> {
    let header = parts.iter().position(|part| part.kind == END).unwrap();
    (header..parts.len()).find(|at| parts[*at].kind == 0x01 && parts[*at].data == SOUGHT)
}

/// The fields of a well-formed body, with the UUID in its header and in other fields too.
fn with_decoys(random: &mut Random) -> Vec<Part> {
    let mut parts = good(random);
    let header = parts.iter().position(|part| part.kind == END).unwrap();
    if random.one_in(2) && parts[..header].iter().all(|part| part.kind != 0x01) {
        parts.insert(1 + random.below(header), part(0x01, &SOUGHT));
    }
    for _ in 0..random.below(4) {
        let at = 1 + random.below(parts.len() - 1);
        parts.insert(at, part(random.pick(&[0x0c, 0x0d, 0xfe]), &SOUGHT));
    }
    parts
}

/// What may stand behind a UUID: the rest of its record, of which these fields stand before it, and
/// other records.
fn behind(random: &mut Random, before: &[Part]) -> Vec<Part> {
    let missing = [0x03, 0x06].into_iter().filter(|kind| before.iter().all(|p| p.kind != *kind));
    let mut rest: Vec<Part> = missing.map(|kind| part(kind, b"behind")).collect();
    for _ in 0..random.below(6) {
        rest.push(Part { kind: random.pick(&[0x00, 0x02, 0x05, 0x0a, 0xfe]), data: data(random) });
    }
    shuffle(random, &mut rest);
    rest.push(end());
    for _ in 0..random.below(4) {
        let uuid = random.array();
        rest.extend(record(random, &uuid));
    }
    rest
}

/// What stands behind the field that decides changes nothing of the answer, and is not counted.
#[test]
fn nothing_behind_counts() {
    let (random, mut found) = (&mut Random(13), 0);
    for _ in 0..6000 {
        let parts = with_decoys(random);
        let Some(at) = deciding(&parts) else {
            assert_eq!(finds(random, &parts), [0, 0, 0, parts.len() as u64]);
            continue;
        };
        let answer = finds(random, &parts);
        assert_eq!((answer[0], answer[3]), (1, at as u64 + 1));
        let before = parts[..at].iter().rposition(|part| part.kind == END).unwrap();
        for _ in 0..3 {
            let rest = behind(random, &parts[before..at]);
            assert_eq!(finds(random, &[&parts[..=at], &rest].concat()), answer);
        }
        found += 1;
    }
    assert!((2000..5000).contains(&found), "a record was found {found} times");
}
