//! Replay and standing against the independent implementation, which keeps every record of every
//! accepted trace; and the cases on each side of a line, with their numbers written out.

mod common;

use common::calls::*;
use common::traces::*;
use peer::random::Random;
use talcfeather::Standing;

/// Times at which something could go over, and some that are one apart.
const TIMES: [u32; 9] = [0, 1, 2, 500, 501, (1 << 31) - 1, 1 << 31, u32::MAX - 1, u32::MAX];

fn any_record(random: &mut Random, uuids: &[Uuid]) -> Vec<u8> {
    let more = random.number() as u32;
    let time = random.pick(&[&TIMES[..], &[more]].concat());
    let uuid = random.pick(uuids);
    record(&uuid, time, random.pick(&[EDIT, CANCEL, CANCEL, REISSUE, REISSUE]))
}

fn any_trace(random: &mut Random, uuids: &[Uuid]) -> Vec<u8> {
    let more = random.below(60);
    let length = random.pick(&[0, 1, 2, 3, 5, 8, more]);
    (0..length).flat_map(|_| any_record(random, uuids)).collect()
}

/// One change that is a fault in most cases.
fn damage(random: &mut Random, trace: &mut Vec<u8>) {
    if trace.is_empty() {
        return;
    }
    let record = random.below(trace.len() / 32) * 32;
    match random.below(5) {
        0 => trace[record + 20] = random.number() as u8,
        1 => trace[record + 20] = random.pick(&[0, 4, 255]),
        2 => trace[record + 21 + random.below(11)] = 1 << random.below(8),
        3 => trace.truncate(record + 1 + random.below(31)),
        _ => drop(trace.remove(record + random.below(32))),
    }
}

fn some_uuids(random: &mut Random, count: usize) -> Vec<Uuid> {
    let near = random.one_in(3);
    (0..count).map(|i| if near { counted(i as u32) } else { random.array() }).collect()
}

/// Histories of some traces each, over few UUIDs.
#[test]
fn histories() {
    let random = &mut Random(1);
    let mut met = [0; 2];
    for _ in 0..1500 {
        let count = 1 + random.below(8);
        let uuids = some_uuids(random, count + 2);
        let mut both = Both::fresh();
        for _ in 0..1 + random.below(5) {
            // The last two never come.
            let mut trace = any_trace(random, &uuids[..count]);
            if random.one_in(3) {
                damage(random, &mut trace);
            }
            met[usize::from(both.replay(&trace, random) == 16)] += 1;
            both.same_entries();
        }
        both.same_standings(&uuids, random);
    }
    assert!(met[0] >= 2000 && met[1] >= 500, "{met:?}");
}

/// Long traces over hundreds and thousands of UUIDs.
#[test]
fn many_uuids() {
    let random = &mut Random(2);
    for count in [64, 500, 3000, 4096, 4500] {
        let uuids = some_uuids(random, count);
        let mut both = Both::fresh();
        let mut numbers = [0; 17];
        for _ in 0..20 {
            let mut trace: Vec<u8> = (0..600).flat_map(|_| any_record(random, &uuids)).collect();
            if random.one_in(6) {
                damage(random, &mut trace);
            }
            numbers[both.replay(&trace, random) as usize] += 1;
        }
        assert!(numbers[0] > 0 && (count <= 4096 || numbers[16] > 0), "{numbers:?}");
        both.same_entries();
        both.same_standings(&uuids[..64], random);
        both.same_standings(&uuids[count - 64..], random);
    }
}

/// Six good records over three UUIDs.
fn six() -> Vec<u8> {
    let kinds = [EDIT, CANCEL, REISSUE, REISSUE, CANCEL, EDIT];
    let records = kinds.iter().enumerate();
    records.flat_map(|(i, kind)| record(&counted(i as u32 % 3), 500 + i as u32, *kind)).collect()
}

/// Replays onto a state that has something in it; the number, and the record's number.
fn answered(trace: &[u8], random: &mut Random) -> (u32, u64) {
    let mut both = Both::fresh();
    assert_eq!(both.replay(&record(&counted(1), 400, CANCEL), random), 0);
    let ours = replay_ours(&both.state, trace, random);
    assert_eq!(both.replay(trace, random), ours.number);
    (ours.number, u64::from_le_bytes(ours.answer.try_into().unwrap()))
}

#[test]
fn every_kind() {
    let random = &mut Random(3);
    for kind in 0..=255 {
        for at in [0, 3, 5] {
            let mut trace = six();
            trace[32 * at + 20] = kind;
            let expected = if (1..=3).contains(&kind) { (0, 0) } else { (16, at as u64) };
            assert_eq!(answered(&trace, random), expected, "kind {kind}, record {at}");
        }
    }
}

#[test]
fn every_byte_of_the_pad() {
    let random = &mut Random(4);
    for at in 0..6 {
        for byte in 21..32 {
            for value in [1, 0x80, 0xff] {
                let mut trace = six();
                trace[32 * at + byte] = value;
                assert_eq!(answered(&trace, random), (16, at as u64), "byte {byte} of {at}");
            }
        }
    }
}

#[test]
fn every_cut() {
    let random = &mut Random(5);
    let trace = six();
    for length in 0..=trace.len() {
        let expected = if length % 32 == 0 { (0, 0) } else { (16, length as u64 / 32) };
        assert_eq!(answered(&trace[..length], random), expected, "{length} bytes");
    }
    let zeros = [&trace[..], &[0; 31]].concat();
    for more in 1..32 {
        assert_eq!(answered(&zeros[..192 + more], random), (16, 6), "{more} zeros more");
    }
}

/// A fault of one sort in the record; a cut is of the last alone.
fn at_fault(trace: &mut Vec<u8>, record: usize, sort: usize) {
    match sort {
        0 => trace[32 * record + 20] = 0,
        1 => trace[32 * record + 20] = 4,
        2 => trace[32 * record + 31] = 1,
        _ => trace.truncate(32 * record + 20),
    }
}

/// Of two faults the earlier one counts, whatever they are.
#[test]
fn the_first_of_two_faults() {
    let random = &mut Random(6);
    for first in 0..6 {
        for second in first..6 {
            for (one, other) in (0..3).flat_map(|one| (0..4).map(move |other| (one, other))) {
                if first == second && other == 3 {
                    continue;
                }
                let mut trace = six();
                at_fault(&mut trace, first, one);
                at_fault(&mut trace, second, other);
                assert_eq!(answered(&trace, random), (16, first as u64));
            }
        }
    }
}

#[test]
fn empty_traces() {
    let random = &mut Random(7);
    let mut both = Both::fresh();
    assert_eq!(both.replay(&[], random), 0);
    assert!(both.state == vec![0; 131_072], "still fresh");
    assert_eq!(both.replay(&six(), random), 0);
    let before = both.state.clone();
    assert_eq!(both.replay(&[], random), 0);
    assert!(both.state == before, "an empty trace changes nothing");
}

fn standing(state: &[u8], uuid: &Uuid) -> Standing {
    talcfeather::standing(state, uuid).unwrap()
}

/// A cancel and a reissue at every pair of times, in both orders, in one trace and in two.
#[test]
fn pairs_of_times() {
    let random = &mut Random(8);
    let uuid = random.array();
    for (cancel, reissue) in TIMES.iter().flat_map(|c| TIMES.map(|r| (*c, r))) {
        let records = [record(&uuid, cancel, CANCEL), record(&uuid, reissue, REISSUE)];
        let [one, other] = &records;
        let orders = [vec![one, other], vec![other, one], vec![one, other, one, other]];
        let expected =
            Standing { cancelled: reissue <= cancel, cancel: Some(cancel), reissue: Some(reissue) };
        for order in orders {
            let (mut together, mut apart) = (Both::fresh(), Both::fresh());
            let whole: Vec<u8> = order.iter().flat_map(|r| r.to_vec()).collect();
            assert_eq!(together.replay(&whole, random), 0);
            for record in order {
                assert_eq!(apart.replay(record, random), 0);
            }
            assert_eq!(standing(&together.state, &uuid), expected, "{cancel}, {reissue}");
            assert_eq!(standing(&apart.state, &uuid), expected, "{cancel}, {reissue}");
        }
    }
}

#[test]
fn one_record_of_each_kind() {
    let random = &mut Random(9);
    for time in TIMES {
        for kind in [EDIT, CANCEL, REISSUE] {
            let uuid = random.array();
            let mut both = Both::fresh();
            assert_eq!(both.replay(&record(&uuid, time, kind), random), 0);
            let expected = Standing {
                cancelled: kind == CANCEL,
                cancel: (kind == CANCEL).then_some(time),
                reissue: (kind == REISSUE).then_some(time),
            };
            assert_eq!(standing(&both.state, &uuid), expected);
            // An edit, however late, changes none of it.
            assert_eq!(both.replay(&record(&uuid, u32::MAX, EDIT), random), 0);
            assert_eq!(standing(&both.state, &uuid), expected);
        }
    }
}

/// The records cut into traces, each perhaps replayed again.
fn replayed(records: &[Vec<u8>], random: &mut Random) -> Both {
    let mut both = Both::fresh();
    let mut rest = records;
    while !rest.is_empty() {
        let (piece, after) = rest.split_at(1 + random.below(rest.len()));
        rest = after;
        let trace = piece.concat();
        for _ in 0..random.pick(&[1, 1, 2, 3]) {
            assert_eq!(both.replay(&trace, random), 0);
        }
    }
    both
}

/// One set of records in any order, split and repeated in any way, gives each UUID one standing.
#[test]
fn order_and_repetition() {
    let random = &mut Random(10);
    for case in 0..400 {
        let count = random.pick(&[1, 2, 5, 20]);
        let uuids = some_uuids(random, count);
        let mut records: Vec<Vec<u8>> =
            (0..1 + random.below(60)).map(|_| any_record(random, &uuids)).collect();
        let first = replayed(&records, random);
        for _ in 0..4 {
            let repeated = random.below(records.len());
            records.push(records[repeated].clone());
            shuffle(random, &mut records);
            let other = replayed(&records, random);
            for uuid in &uuids {
                let [one, another] =
                    [&first, &other].map(|both| standing_ours(&both.state, uuid, random));
                assert_eq!(one, another, "case {case}, {uuid:x?}");
            }
        }
    }
}

/// Edits of that many UUIDs, from that number on.
fn edits(from: u32, count: u32) -> Vec<u8> {
    (from..from + count).flat_map(|i| record(&counted(i), i, EDIT)).collect()
}

/// In one trace, and after another; each of the three kinds takes room alike.
#[test]
fn uuids_4096_and_4097() {
    let random = &mut Random(11);
    for before in [0, 1, 2048, 4095, 4096] {
        for kind in [EDIT, CANCEL, REISSUE] {
            let mut both = Both::fresh();
            assert_eq!(both.replay(&edits(0, before), random), 0);
            let full = edits(before, 4096 - before);
            let one_more = [&full[..], &record(&counted(4096), 7, kind)].concat();
            let refused = replay_ours(&both.state, &one_more, random);
            assert_eq!(refused.number, 16);
            assert_eq!(refused.answer, u64::from(4096 - before).to_le_bytes());
            assert!(refused.memory == both.state, "a refused state is what it was");
            assert_eq!(both.replay(&full, random), 0);
            // Full: those that are there go on, and no other comes in.
            assert_eq!(both.replay(&record(&counted(4095), 8, kind), random), 0);
            assert_eq!(both.replay(&record(&counted(4096), 8, kind), random), 16);
            both.same_entries();
            both.same_standings(&[0, 2047, 4095, 4096].map(counted), random);
        }
    }
}

/// Another fault before, at and after the record that needs one more.
#[test]
fn uuids_4097_and_another_fault() {
    let random = &mut Random(12);
    let whole = edits(0, 4099);
    for (record, number) in [(0, 0), (4095, 4095), (4096, 4096), (4097, 4096), (4098, 4096)] {
        for sort in 0..4 {
            let mut trace = whole.clone();
            at_fault(&mut trace, record, sort);
            let ours = replay_ours(&Both::fresh().state, &trace, random);
            assert_eq!(ours.number, 16);
            assert_eq!(ours.answer, u64::to_le_bytes(number), "fault {sort} at {record}");
            assert!(ours.memory == Both::fresh().state, "a refused state is what it was");
        }
    }
}

/// A refused trace leaves its UUIDs no room: as many come in afterwards as before.
#[test]
fn a_refused_trace_takes_no_room() {
    let random = &mut Random(13);
    let mut both = Both::fresh();
    assert_eq!(both.replay(&edits(0, 100), random), 0);
    let mut refused = edits(5000, 3000);
    refused.push(0);
    for _ in 0..3 {
        assert_eq!(both.replay(&refused, random), 16);
    }
    assert_eq!(both.replay(&edits(100, 3996), random), 0);
    assert_eq!(both.replay(&edits(5000, 1), random), 16);
    both.same_entries();
}

#[test]
fn states_of_other_lengths() {
    let random = &mut Random(14);
    for length in [0, 1, 31, 32, 64, 131_040, 131_071, 131_073, 131_104, 262_144] {
        let state = vec![0; length];
        let traces = [Vec::new(), six(), six()[..33].to_vec(), vec![0; 32], edits(0, 4097)];
        for trace in traces {
            let ours = replay_ours(&state, &trace, random);
            assert_eq!((ours.number, ours.answer), (19, vec![0; 8]), "{length} bytes");
            assert!(ours.memory == state, "a refused state is what it was");
        }
        let ours = standing_ours(&state, &counted(1), random);
        assert_eq!((ours.number, ours.answer), (19, vec![0; 40]), "{length} bytes");
    }
}

/// What `talc_replay` answers on that state, to traces with and without a fault.
fn judged(state: &[u8], random: &mut Random) -> u32 {
    let empty = replay_ours(state, &[], random);
    assert!(empty.memory == state, "an empty trace changes nothing");
    assert_eq!(empty.answer, [0; 8]);
    if empty.number == 19 {
        // 19 comes before 16, and before any record is taken in.
        for trace in [six(), vec![0; 32], vec![1]] {
            let ours = replay_ours(state, &trace, random);
            assert_eq!((ours.number, ours.answer), (19, vec![0; 8]));
            assert!(ours.memory == state, "a refused state is what it was");
        }
    }
    empty.number
}

/// Where the entry of that UUID stands.
fn place(state: &[u8], uuid: &Uuid) -> usize {
    let entry = state.chunks(32).position(|e| e[..16] == *uuid && e[16..] != [0; 16]);
    32 * entry.expect("an entry")
}

fn with_mark(state: &[u8], at: usize, mark: u64) -> Vec<u8> {
    let mut state = state.to_vec();
    state[at..at + 8].copy_from_slice(&mark.to_le_bytes());
    state
}

/// Marks on each side of every line, in each of the two places.
#[test]
fn marks_of_entries() {
    let random = &mut Random(15);
    let (none, some) = (1 << 32, 1 << 33);
    let good: [u64; 5] = [none, some, some + 1, some + 500, some + none - 1];
    let bad = [0, 1, 500, none - 1, none + 1, some - 1, some + none, some + none + 1, 1 << 34, !0];
    let cases = good.map(|mark| (mark, 0)).into_iter().chain(bad.map(|mark| (mark, 19)));
    let mut both = Both::fresh();
    assert_eq!(both.replay(&[six(), edits(3, 200)].concat(), random), 0);
    for (mark, number) in cases {
        for uuid in [0, 2, 150].map(counted) {
            for half in [16, 24] {
                let at = place(&both.state, &uuid) + half;
                let state = with_mark(&both.state, at, mark);
                assert_eq!(judged(&state, random), number, "{mark:x} at {half}");
                let ours = standing_ours(&state, &uuid, random);
                assert_eq!(ours.number, number, "{mark:x} at {half}");
                assert!(number == 0 || ours.answer == [0; 40]);
                // Another look-up may end at the same entry, and else is as it was.
                let other = standing_ours(&state, &counted(77), random);
                let before = standing_ours(&both.state, &counted(77), random);
                assert!(other == before || (other.number, other.answer) == (19, vec![0; 40]));
            }
        }
    }
}

/// Every single byte of a free entry, at the state's ends and between.
#[test]
fn bytes_of_free_entries() {
    let random = &mut Random(16);
    let mut both = Both::fresh();
    assert_eq!(both.replay(&six(), random), 0);
    let free = |entry: &usize| both.state[32 * entry..32 * entry + 32] == [0; 32];
    let entries = [0, 1, 2, 3, 4, 5, 2047, 2048, 4090, 4094, 4095].into_iter().filter(free);
    for entry in entries {
        for byte in 0..32 {
            for value in [1, 0x80, 0xff] {
                let mut state = both.state.clone();
                state[32 * entry + byte] = value;
                assert_eq!(judged(&state, random), 19, "byte {byte} of entry {entry}");
            }
        }
    }
}

/// Where every entry has a UUID and no mark, each look-up ends at such an entry.
#[test]
fn entries_without_marks() {
    let random = &mut Random(20);
    let state = [&[1][..], &[0; 31]].concat().repeat(4096);
    assert_eq!(judged(&state, random), 19);
    for uuid in [[0; 16], counted(1), random.array()] {
        let ours = standing_ours(&state, &uuid, random);
        assert_eq!((ours.number, ours.answer), (19, vec![0; 40]));
    }
}

/// Taken once in that many times, else free.
fn any_entry(random: &mut Random, share: usize) -> Vec<u8> {
    if !random.one_in(share) {
        return vec![0; 32];
    }
    let time = random.one_in(2).then_some(random.number() as u32);
    [&random.array::<16>()[..], &mark(time).to_le_bytes(), &mark(None).to_le_bytes()].concat()
}

/// States of whole entries that no replay made, and states of any bytes: there is an answer, and a
/// refused state is what it was.
#[test]
fn states_of_others() {
    let random = &mut Random(17);
    let mut met = Met::default();
    for case in 0..300 {
        let share = random.pick(&[1, 2, 30]);
        let mut state: Vec<u8> = (0..4096).flat_map(|_| any_entry(random, share)).collect();
        if case % 3 == 0 {
            let at = random.below(state.len());
            state[at] ^= 1 << random.below(8);
        }
        let uuid = random.array();
        let ours = replay_ours(&state, &record(&uuid, 5, CANCEL), random);
        assert!(ours.number == 0 || ours.memory == state, "a refused state is what it was");
        if ours.number == 0 {
            assert_eq!(standing(&ours.memory, &uuid).cancel, Some(5));
        }
        assert!([0, 19].contains(&standing_ours(&state, &uuid, random).number));
        let again = replay_ours(&state, &record(&uuid, 5, CANCEL), random);
        met.same(ours, again, case);
    }
    met.each_of(&[0, 16, 19], 20);
}

/// UUIDs that a sum or a mix of their words can't tell apart, or only just: the i-th of a family.
fn alike(family: usize, i: u32) -> Uuid {
    let wide = u64::from(i).wrapping_mul(0x9E37_79B9_7F4A_7C15);
    let halves = |one: u64, other: u64| [one.to_le_bytes(), other.to_le_bytes()].concat();
    let words = |row: [u32; 4]| row.iter().flat_map(|word| word.to_le_bytes()).collect();
    let bytes: Vec<u8> = match family {
        0 => halves(u64::from(i), u64::from(i).wrapping_neg()),
        1 => halves(wide, wide.wrapping_neg()),
        2 => halves(wide, wide),
        3 => halves(0, u64::from(i) << 12),
        4 => halves(u64::from(i) << 40, 0),
        5 => words([i, i.wrapping_neg(), 0, 0]),
        6 => words([i, 0, i, 0]),
        // 256 that differ in one byte alone, for each of the sixteen.
        7 => {
            let mut uuid = [(i / 256) as u8; 16];
            uuid[i as usize / 256 % 16] = i as u8;
            uuid.to_vec()
        }
        _ => words([0, i % 64, 0u32.wrapping_sub(i % 64 + i / 64), i / 64]),
    };
    bytes.try_into().unwrap()
}

/// A full state of each family, and one UUID more.
#[test]
fn uuids_that_collide() {
    let random = &mut Random(18);
    for family in 0..9 {
        let mut order: Vec<u32> = (0..4096).collect();
        shuffle(random, &mut order);
        let kinds = [EDIT, CANCEL, REISSUE];
        let record = |i: &u32| record(&alike(family, *i), i / 7, kinds[*i as usize % 3]);
        let trace: Vec<u8> = order.iter().flat_map(record).collect();
        let mut both = Both::fresh();
        let (first, second) = trace.split_at(32 * random.below(4096));
        assert_eq!(both.replay(first, random), 0);
        assert_eq!(both.replay(second, random), 0);
        assert_eq!(both.replay(&record(&4096), random), 16);
        assert_eq!(both.replay(&trace, random), 0, "all again");
        both.same_entries();
        for i in (0..4096).step_by(61).chain([4095, 4096, 5000]) {
            both.same_standings(&[alike(family, i)], random);
        }
    }
}

/// The UUID of zeros is one like any other.
#[test]
fn the_uuid_of_zeros() {
    let random = &mut Random(19);
    let (zeros, ones) = ([0; 16], [0xff; 16]);
    let mut both = Both::fresh();
    both.same_standings(&[zeros, ones], random);
    for (time, kind) in [(0, EDIT), (0, REISSUE), (0, CANCEL), (1, REISSUE)] {
        for uuid in [&zeros, &ones] {
            assert_eq!(both.replay(&record(uuid, time, kind), random), 0);
            both.same_entries();
            both.same_standings(&[zeros, ones], random);
        }
    }
    assert_eq!(entries(&both.state).len(), 2);
}
