//! `expires=`: the day from which on a password is expired.

use crate::show;
use std::cmp::Ordering;

const DAY: u32 = 86_400;

/// The start of the day that is shown like that, in UTC. Days come in the order of their texts. The
/// first day of all is no answer: its start is 0, which means never.
pub fn seconds(text: &str) -> Option<u32> {
    let (mut from, mut to) = (1, u32::MAX / DAY + 1);
    while from < to {
        let middle = from.midpoint(to);
        match show::day(middle * DAY).as_str().cmp(text) {
            Ordering::Less => from = middle + 1,
            Ordering::Equal => return Some(middle * DAY),
            Ordering::Greater => to = middle,
        }
    }
    None
}

#[test]
fn days() {
    for day in 1..=u32::MAX / DAY {
        assert_eq!(seconds(&show::day(day * DAY)), Some(day * DAY));
    }
    let none = [
        "",
        "never",
        "1970-01-01",
        "1969-12-31",
        "2106-02-08",
        "2026-02-29",
        "2026-13-01",
        "2026-00-10",
        "2026-1-02",
        "2026-01-2",
        "26-01-02",
        "2026/01/02",
        "2026-01-02 ",
        " 2026-01-02",
        "2026-01-02T00:00",
        "+2026-01-02",
        "9999-99-99",
        "２０２６-01-02",
    ];
    for text in none {
        assert_eq!(seconds(text), None, "{text}");
    }
}
