//! The proved lower layers, for the tests alone: the product does not link them.

mod raw {
    extern "C" {
        pub fn probe_hash(m: *const u8, n: usize, out: *mut [u8; 32]);
        pub fn probe_pieces(m: *const u8, n: usize, piece: usize, out: *mut [u8; 32]);
        pub fn probe_hmac(
            key: *const u8,
            key_len: usize,
            m: *const u8,
            n: usize,
            out: *mut [u8; 32],
        );
        pub fn probe_stretch(
            passphrase: *const u8,
            n: usize,
            salt: *const [u8; 32],
            iter: u32,
            out: *mut [u8; 32],
        ) -> u64;
        pub fn probe_decrypt(
            key: *const [u8; 32],
            iv: *const [u8; 16],
            text: *mut u8,
            n: usize,
        ) -> u64;
        pub fn probe_encrypt(
            key: *const [u8; 32],
            iv: *const [u8; 16],
            from: *const u8,
            n: usize,
            to: *mut u8,
            room: usize,
        );
        pub fn probe_repeated(body: *const u8, n: usize, from: usize) -> usize;
    }
}

/// An answer's memory holds junk before the call.
const JUNK: [u8; 32] = [0xA5; 32];

pub fn hash(message: &[u8]) -> [u8; 32] {
    let mut out = JUNK;
    unsafe { raw::probe_hash(message.as_ptr(), message.len(), &mut out) };
    out
}

/// The running hash, fed in pieces of that many bytes; 0 counts as 1.
pub fn hash_in_pieces(message: &[u8], piece: usize) -> [u8; 32] {
    let mut out = JUNK;
    unsafe { raw::probe_pieces(message.as_ptr(), message.len(), piece, &mut out) };
    out
}

pub fn hmac(key: &[u8], message: &[u8]) -> [u8; 32] {
    let mut out = JUNK;
    let (key, key_len) = (key.as_ptr(), key.len());
    unsafe { raw::probe_hmac(key, key_len, message.as_ptr(), message.len(), &mut out) };
    out
}

/// P', and the compressions spent on it.
pub fn stretch(passphrase: &[u8], salt: &[u8; 32], iter: u32) -> ([u8; 32], u64) {
    let mut out = JUNK;
    let (passphrase, n) = (passphrase.as_ptr(), passphrase.len());
    let compressions = unsafe { raw::probe_stretch(passphrase, n, salt, iter, &mut out) };
    (out, compressions)
}

/// CBC in place; answers the blocks. No whole number of blocks: nothing changed, 0.
pub fn decrypt(key: &[u8; 32], iv: &[u8; 16], text: &mut [u8]) -> u64 {
    unsafe { raw::probe_decrypt(key, iv, text.as_mut_ptr(), text.len()) }
}

/// CBC from one memory into the start of another. No whole number of blocks, or no room: nothing
/// changed.
pub fn encrypt(key: &[u8; 32], iv: &[u8; 16], from: &[u8], to: &mut [u8]) {
    let (room, to) = (to.len(), to.as_mut_ptr());
    unsafe { raw::probe_encrypt(key, iv, from.as_ptr(), from.len(), to, room) }
}

/// The number of the first UUID, from the place on, that an earlier one is the same as.
pub fn repeated(body: &[u8], from: usize) -> Option<usize> {
    let number = unsafe { raw::probe_repeated(body.as_ptr(), body.len(), from) };
    (number != body.len()).then_some(number)
}
