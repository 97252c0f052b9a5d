//! Wiping memory.

use core::ptr::write_volatile;
use core::sync::atomic::{compiler_fence, Ordering};

/// The bytes that are written at once.
const WORD: usize = size_of::<u64>();

/// Sets every byte to zero, and is not left out by the compiler, as a plain write is that nobody
/// reads. For memory that held a body, a key or a passphrase.
///
/// ```
/// let mut passphrase = *b"a whole floor of lathes";
/// talcfeather::wipe(&mut passphrase);
/// assert_eq!(passphrase, [0; 23]);
/// ```
pub fn wipe(bytes: &mut [u8]) {
    let unaligned = bytes.as_ptr().align_offset(WORD).min(bytes.len());
    let (before, rest) = bytes.split_at_mut(unaligned);
    let mut words = rest.chunks_exact_mut(WORD);
    for word in &mut words {
        // Sound: these are the bytes of a whole word, aligned, and borrowed mutably.
        unsafe { write_volatile(word.as_mut_ptr().cast::<u64>(), 0) };
    }
    for byte in before.iter_mut().chain(words.into_remainder()) {
        // Sound: the byte is borrowed mutably.
        unsafe { write_volatile(byte, 0) };
    }
    // Nothing that follows is moved before the writes.
    compiler_fence(Ordering::SeqCst);
}
