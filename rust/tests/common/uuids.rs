//! Rows of UUIDs, and bodies with a smallest record for each.

use super::bodies::{end, join, part, version};
use super::traces::Uuid;
use peer::random::Random;

/// As many smallest records as the longest body holds.
pub const MOST_RECORDS: u32 = 52_425;

/// Version, END, and for each UUID a record of 80 bytes: UUID, title and password of one byte, END.
pub fn body_with(random: &mut Random, uuids: &[Uuid]) -> Vec<u8> {
    let mut body = join(random, &[version(), end()]);
    let fields = [part(0x01, &[0; 16]), part(0x03, b"t"), part(0x06, b"p"), end()];
    let mut record = join(random, &fields);
    assert_eq!((body.len(), record.len()), (32, 80));
    for uuid in uuids {
        record[5..21].copy_from_slice(uuid);
        body.extend_from_slice(&record);
    }
    body
}

/// The number in the last bytes, highest first: sorted as bytes are, with one long start.
pub fn sorted(number: u32) -> Uuid {
    let mut uuid = [7; 16];
    uuid[12..].copy_from_slice(&number.to_be_bytes());
    uuid
}

/// The four words of a UUID, times 1, 3, 5 and 7.
fn sum(uuid: &Uuid) -> u32 {
    let word = |i: usize| u32::from_le_bytes(uuid[4 * i..4 * i + 4].try_into().unwrap());
    (0..4).fold(0u32, |sum, i| sum.wrapping_add(word(i).wrapping_mul(2 * i as u32 + 1)))
}

/// The slot at which the library's look-up of a UUID starts. It changes how much is compared and no
/// answer, and is the library's own matter: where that is changed, only `chosen` loses its edge.
fn start(uuid: &Uuid) -> u32 {
    ((u64::from(sum(uuid).wrapping_mul(2_654_435_769)) * 24_576) >> 32) as u32
}

/// A random one of the UUIDs of which the look-up starts at that slot.
pub fn chosen(random: &mut Random, slot: u32) -> Uuid {
    // 2,654,435,769 times this is 1 more than a multiple of 2^32.
    const BACK: u32 = 340_573_321;
    let least = (u64::from(slot) << 32).div_ceil(24_576) as u32;
    let mut uuid: Uuid = random.array();
    uuid[..4].fill(0);
    let word = least.wrapping_mul(BACK).wrapping_sub(sum(&uuid));
    uuid[..4].copy_from_slice(&word.to_le_bytes());
    assert_eq!(start(&uuid), slot);
    uuid
}
