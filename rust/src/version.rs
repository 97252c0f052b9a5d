//! Which version this is.

use crate::raw;

/// The version of the header that this crate was written by: `TALC_VERSION`. It goes up when an answer
/// grows or changes its meaning.
pub const VERSION: u32 = 5;

/// The version of the archive that was linked. Where it is not [`VERSION`], the archive is of another
/// tree than this crate, and its answers may have other sizes: use neither.
///
/// ```
/// assert_eq!(talcfeather::version(), talcfeather::VERSION);
/// ```
pub fn version() -> u32 {
    // Sound: the call takes nothing.
    unsafe { raw::talc_version() }
}
