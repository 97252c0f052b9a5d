//! The stack that a call leaves behind.

use crate::wipe;

/// The stack that a thread needs to call [`read`](crate::read) or [`write`](crate::write), in bytes,
/// and some more for its own functions. The proved calls take less: some 54,600 bytes, for the table
/// in which UUIDs are looked up and the cipher's tables. The rest is so that clearing reaches further
/// than they did.
pub const STACK: usize = 65_536;

/// Clears what a call has left below the stack of the function that made it. To be called by that
/// function, so that both start at the same place.
#[inline(never)]
pub(crate) fn clear() {
    wipe(&mut [0; STACK]);
}

/// Clears the same when the function that holds it returns. For one that returns what its last call
/// makes: that is made in its place then, where a variable would be moved there, and leave a copy.
pub(crate) struct Clearing;

impl Drop for Clearing {
    #[inline(always)]
    fn drop(&mut self) {
        clear();
    }
}
