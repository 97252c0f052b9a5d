//! Traces, and a state beside all records that it has taken in.

use super::calls::{replay_ours, standing_ours, standing_theirs, Outcome};
use peer::random::Random;
use peer::replay::Accepted;
use std::collections::BTreeMap;

pub const EDIT: u8 = 1;
pub const CANCEL: u8 = 2;
pub const REISSUE: u8 = 3;

pub type Uuid = [u8; 16];

pub fn record(uuid: &Uuid, time: u32, kind: u8) -> Vec<u8> {
    [&uuid[..], &time.to_le_bytes(), &[kind], &[0; 11]].concat()
}

/// A UUID for each number, with the number in its first bytes.
pub fn counted(number: u32) -> Uuid {
    let mut uuid = [0; 16];
    uuid[..4].copy_from_slice(&number.to_le_bytes());
    uuid
}

pub fn shuffle<T>(random: &mut Random, row: &mut [T]) {
    for last in (1..row.len()).rev() {
        row.swap(last, random.below(last + 1));
    }
}

/// The two marks of an entry that is taken.
pub type Marks = (u64, u64);

/// The mark of a latest time, or of none.
pub fn mark(time: Option<u32>) -> u64 {
    time.map_or(1 << 32, |time| (1 << 33) + u64::from(time))
}

/// The entries of a state that are taken. No UUID has two.
pub fn entries(state: &[u8]) -> BTreeMap<Uuid, Marks> {
    let number = |bytes: &[u8]| u64::from_le_bytes(bytes.try_into().unwrap());
    let mut entries = BTreeMap::new();
    for entry in state.chunks(32).filter(|entry| **entry != [0; 32]) {
        let marks = (number(&entry[16..24]), number(&entry[24..]));
        let before = entries.insert(entry[..16].try_into().unwrap(), marks);
        assert_eq!(before, None, "two entries of one UUID");
    }
    entries
}

/// A state of the library's, and what the independent implementation has.
#[derive(Clone)]
pub struct Both {
    pub state: Vec<u8>,
    pub accepted: Accepted,
}

impl Both {
    pub fn fresh() -> Both {
        Both { state: vec![0; 131_072], accepted: Accepted::default() }
    }

    /// Replays, compares number, answer and all of a refused state, and answers the number.
    pub fn replay(&mut self, trace: &[u8], random: &mut Random) -> u32 {
        let ours = replay_ours(&self.state, trace, random);
        let taken = self.accepted.take(trace);
        let (number, record) = taken.map_or_else(|record| (16, record), |()| (0, 0));
        let memory = if number == 0 { ours.memory.clone() } else { self.state.clone() };
        assert_eq!(ours, Outcome { number, answer: record.to_le_bytes().to_vec(), memory });
        self.state = ours.memory;
        number
    }

    /// Every UUID that has come has its entry, with the marks of its latest times, and no other has.
    pub fn same_entries(&self) {
        let standing = |uuid| {
            let standing = self.accepted.standing(&uuid);
            (uuid, (mark(standing.cancel), mark(standing.reissue)))
        };
        let expected: BTreeMap<_, _> = self.accepted.uuids().into_iter().map(standing).collect();
        assert!(entries(&self.state) == expected, "{:x?}", entries(&self.state));
    }

    /// The standing of each of these, whether it has come or not.
    pub fn same_standings(&self, uuids: &[Uuid], random: &mut Random) {
        for uuid in uuids {
            let ours = standing_ours(&self.state, uuid, random);
            assert_eq!(ours, standing_theirs(&self.accepted, uuid), "{uuid:x?}");
        }
    }
}
