//! Stretching: hash passphrase then salt once, then hash the result ITER more times.

use crate::sha256::{hash, hash_counted};

pub const FLOOR: u32 = 2048;

/// P', and the compressions spent on it.
pub fn stretch(passphrase: &[u8], salt: &[u8; 32], iter: u32) -> ([u8; 32], u64) {
    let (mut x, mut compressions) = hash_counted(&[passphrase, salt].concat());
    for _ in 0..iter {
        x = hash(&x);
        compressions += 1;
    }
    (x, compressions)
}
