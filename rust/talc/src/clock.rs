//! The time, in seconds since 1970-01-01 UTC.

use crate::arguments::Arguments;
use crate::trouble::Trouble;
use std::time::{SystemTime, UNIX_EPOCH};

/// What `--now` gives, or the clock.
pub fn now(arguments: &Arguments) -> Result<u32, Trouble> {
    arguments.number("--now").map_or_else(clock, Ok)
}

fn clock() -> Result<u32, Trouble> {
    let since = SystemTime::now().duration_since(UNIX_EPOCH).ok();
    let seconds = since.and_then(|since| since.as_secs().try_into().ok());
    seconds.ok_or_else(|| Trouble::usage("the clock is not between 1970 and 2106: give --now"))
}
