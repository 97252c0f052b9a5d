//! What a file is made of besides passphrase and body.

use crate::{wipe, Opened};

/// What a file is made of besides passphrase and body. For a new file, all but `iter` come fresh from
/// a good random source.
///
/// When it is dropped, its keys are wiped.
#[derive(Clone, PartialEq, Eq)]
pub struct Parts {
    /// Hashed with the passphrase.
    pub salt: [u8; 32],
    /// How often the hash is hashed again, at least 2,048.
    pub iter: u32,
    /// The key of the body.
    pub k: [u8; 32],
    /// The key of the HMAC.
    pub l: [u8; 32],
    /// The initial vector of the body.
    pub iv: [u8; 16],
}

impl Parts {
    /// The parts of a new file: `random` fills the bytes that it is handed, from a good random source.
    pub fn fresh(iter: u32, mut random: impl FnMut(&mut [u8])) -> Parts {
        let mut parts = Parts { salt: [0; 32], iter, k: [0; 32], l: [0; 32], iv: [0; 16] };
        random(&mut parts.salt);
        random(&mut parts.k);
        random(&mut parts.l);
        random(&mut parts.iv);
        parts
    }

    /// The parts of a file that was read: written with them, its body is the same file again.
    /// None if the bytes are too few to be that file.
    pub fn of(file: &[u8], opened: &Opened<'_>) -> Option<Parts> {
        let salt = *file.get(4..)?.first_chunk()?;
        let iter = u32::from_le_bytes(*file.get(36..)?.first_chunk()?);
        let iv = *file.get(136..)?.first_chunk()?;
        Some(Parts { salt, iter, k: opened.k, l: opened.l, iv })
    }
}

impl Drop for Parts {
    fn drop(&mut self) {
        wipe(&mut self.k);
        wipe(&mut self.l);
    }
}
