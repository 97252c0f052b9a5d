//! The numbers that `include/talcfeather.h` defines.

use std::collections::BTreeMap;
use std::path::Path;

pub fn text() -> String {
    let path = Path::new(env!("CARGO_MANIFEST_DIR")).join("../include/talcfeather.h");
    // The program's tests stand one folder deeper.
    let deeper = Path::new(env!("CARGO_MANIFEST_DIR")).join("../../include/talcfeather.h");
    std::fs::read_to_string(path).or_else(|_| std::fs::read_to_string(deeper)).expect("the header")
}

/// Decimal or hex, perhaps with the suffix of an unsigned constant.
fn number(word: &str) -> Option<u64> {
    let word = word.trim_end_matches('u');
    match word.strip_prefix("0x") {
        Some(digits) => u64::from_str_radix(digits, 16).ok(),
        None => word.parse().ok(),
    }
}

/// Every macro without arguments that is a number.
pub fn macros() -> BTreeMap<String, u64> {
    let text = text();
    let defined = text.lines().filter_map(|line| line.strip_prefix("#define "));
    defined
        .filter_map(|line| {
            let mut words = line.split_whitespace();
            Some((words.next()?.to_string(), number(words.next()?)?))
        })
        .collect()
}
