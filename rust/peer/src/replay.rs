//! Replay: every record of every accepted trace is kept, and asked anew for each answer.

use std::collections::BTreeSet;

pub const MOST_UUIDS: usize = 4096;

#[derive(Clone, Copy, Debug, PartialEq, Eq)]
pub struct Record {
    pub uuid: [u8; 16],
    pub time: u32,
    pub kind: u8,
}

#[derive(Clone, Copy, Debug, PartialEq, Eq)]
pub struct Standing {
    pub cancelled: bool,
    pub cancel: Option<u32>,
    pub reissue: Option<u32>,
}

/// All records of the traces accepted so far.
#[derive(Clone, Debug, Default)]
pub struct Accepted(pub Vec<Record>);

/// The record of 32 bytes; none if these are no such record.
fn record(bytes: &[u8]) -> Option<Record> {
    let bytes: &[u8; 32] = bytes.try_into().ok()?;
    let [time @ .., kind] = <[u8; 5]>::try_from(&bytes[16..21]).ok()?;
    let padded = bytes[21..].iter().all(|byte| *byte == 0);
    let uuid = bytes[..16].try_into().ok()?;
    (padded && (1..=3).contains(&kind)).then_some(Record {
        uuid,
        time: u32::from_le_bytes(time),
        kind,
    })
}

impl Accepted {
    pub fn uuids(&self) -> BTreeSet<[u8; 16]> {
        self.0.iter().map(|record| record.uuid).collect()
    }

    /// Takes the whole trace, or nothing and tells the number of its first record at fault.
    pub fn take(&mut self, trace: &[u8]) -> Result<(), u64> {
        let mut uuids = self.uuids();
        let mut taken = Vec::new();
        for (number, bytes) in trace.chunks(32).enumerate() {
            let record = record(bytes).ok_or(number as u64)?;
            uuids.insert(record.uuid);
            if uuids.len() > MOST_UUIDS {
                return Err(number as u64);
            }
            taken.push(record);
        }
        self.0.extend(taken);
        Ok(())
    }

    fn times(&self, uuid: &[u8; 16], kind: u8) -> Vec<u32> {
        let those = self.0.iter().filter(|r| r.uuid == *uuid && r.kind == kind);
        those.map(|r| r.time).collect()
    }

    /// Cancelled: they hold a cancel of it, and no reissue with a time greater than its latest
    /// cancel.
    pub fn standing(&self, uuid: &[u8; 16]) -> Standing {
        let (cancels, reissues) = (self.times(uuid, 2), self.times(uuid, 3));
        let cancel = cancels.into_iter().max();
        let cancelled = cancel.is_some_and(|latest| !reissues.iter().any(|time| *time > latest));
        Standing { cancelled, cancel, reissue: reissues.into_iter().max() }
    }
}
