//! One field at any place of a body, as the walk tells it.

use super::calls::Walk;
use super::tables::numbers;
use peer::fields::{stored, Cursor};
use peer::random::Random;

/// The nine numbers of the library's answer, which is also the peer's, for a field that stands at
/// that place, with junk before it and behind it.
pub fn answer(
    random: &mut Random,
    place: usize,
    kind: u8,
    in_record: bool,
    data: &[u8],
    fill: &[u8],
) -> [u64; 9] {
    let after = 16 * random.below(3);
    let body = [random.bytes(place), stored(kind, data, fill), random.bytes(after)].concat();
    let case = Walk { body: &body, at: Cursor { place, in_record } };
    let ours = case.ours(random);
    assert_eq!(ours, case.theirs(), "type {kind} of {} bytes", data.len());
    numbers(&ours).try_into().unwrap()
}

/// Kind, value and second half, at any place.
pub fn told(random: &mut Random, kind: u8, in_record: bool, data: &[u8], fill: &[u8]) -> [u64; 3] {
    let place = 16 * random.below(3);
    let [.., value, first, second] = answer(random, place, kind, in_record, data, fill);
    [value, first, second]
}
