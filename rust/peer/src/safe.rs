//! The file: read and write.

use crate::body::{covered, judge, Counts};
use crate::chain::{cbc_decrypt, cbc_encrypt, ecb_decrypt, ecb_encrypt};
use crate::fields::LONGEST_BODY;
use crate::hmac::hmac;
use crate::sha256::hash;
use crate::stretch::{stretch, FLOOR};
use crate::twofish::Twofish;

pub const MARKER: &[u8; 16] = b"PWS3-EOFPWS3-EOF";
pub const LONGEST_FILE: usize = 4_194_304;
pub const LONGEST_PASSPHRASE: usize = 1024;

/// The work that a reading reports.
#[derive(Clone, Copy, Debug, Default, PartialEq, Eq)]
pub struct Work {
    pub compressions: u64,
    pub blocks: u64,
}

#[derive(Clone, Debug, PartialEq, Eq)]
pub struct Opened {
    pub k: [u8; 32],
    pub l: [u8; 32],
    pub counts: Counts,
    pub body: Vec<u8>,
}

fn bytes<const N: usize>(file: &[u8], offset: usize) -> [u8; N] {
    file[offset..offset + N].try_into().unwrap()
}

/// Refusals 1 to 7, which need no secret.
fn refused_early(file: &[u8], passphrase: &[u8], ceiling: u32, room: usize) -> Option<u32> {
    let length = file.len();
    if !(232..=LONGEST_FILE).contains(&length) || (length - 200) % 16 != 0 {
        return Some(1);
    }
    let iter = u32::from_le_bytes(bytes(file, 36));
    let marker = file[152..].chunks(16).position(|block| block == MARKER);
    let refusals = [
        (2, passphrase.len() > LONGEST_PASSPHRASE),
        (3, room < length - 200),
        (4, &file[..4] != b"PWS3"),
        (5, iter < FLOOR),
        (6, iter > ceiling),
        (7, marker.map(|block| 152 + 16 * block) != Some(length - 48)),
    ];
    refusals.iter().find(|r| r.1).map(|r| r.0)
}

/// The answer, or the refusal's number; and the work in both cases.
pub fn read(
    file: &[u8],
    passphrase: &[u8],
    ceiling: u32,
    room: usize,
) -> (Result<Opened, u32>, Work) {
    let mut work = Work::default();
    if let Some(number) = refused_early(file, passphrase, ceiling, room) {
        return (Err(number), work);
    }
    let iter = u32::from_le_bytes(bytes(file, 36));
    let (stretched, compressions) = stretch(passphrase, &bytes(file, 4), iter);
    work.compressions = compressions + 1;
    if hash(&stretched) != bytes::<32>(file, 40) {
        return (Err(8), work);
    }
    let mut keys: [u8; 64] = bytes(file, 72);
    ecb_decrypt(&Twofish::new(&stretched), &mut keys);
    let (k, l) = (bytes(&keys, 0), bytes(&keys, 32));
    let mut body = file[152..file.len() - 48].to_vec();
    cbc_decrypt(&Twofish::new(&k), &bytes(file, 136), &mut body);
    work.blocks = 4 + body.len() as u64 / 16;
    let Ok(counts) = judge(&body) else {
        return (Err(9), work);
    };
    if hmac(&l, &covered(&body)) != file[file.len() - 32..] {
        return (Err(9), work);
    }
    (Ok(Opened { k, l, counts, body }), work)
}

/// What a file is made of, besides its body.
#[derive(Clone, Debug)]
pub struct Parts {
    pub passphrase: Vec<u8>,
    pub salt: [u8; 32],
    pub iter: u32,
    pub k: [u8; 32],
    pub l: [u8; 32],
    pub iv: [u8; 16],
}

/// The file by the table of offsets, whatever the body; the HMAC is the caller's.
pub fn assemble(parts: &Parts, body: &[u8], tag: &[u8; 32]) -> Vec<u8> {
    let (stretched, _) = stretch(&parts.passphrase, &parts.salt, parts.iter);
    let mut keys = [parts.k, parts.l].concat();
    ecb_encrypt(&Twofish::new(&stretched), &mut keys);
    let mut encrypted = body.to_vec();
    cbc_encrypt(&Twofish::new(&parts.k), &parts.iv, &mut encrypted);
    let iter = parts.iter.to_le_bytes();
    let check = hash(&stretched);
    let pieces: [&[u8]; 9] =
        [b"PWS3", &parts.salt, &iter, &check, &keys, &parts.iv, &encrypted, MARKER, tag];
    pieces.concat()
}

/// The file, or the refusal's number.
pub fn write(parts: &Parts, body: &[u8], room: usize) -> Result<Vec<u8>, u32> {
    if !(32..=LONGEST_BODY).contains(&body.len()) || body.len() % 16 != 0 {
        return Err(1);
    }
    if parts.passphrase.len() > LONGEST_PASSPHRASE {
        return Err(2);
    }
    if room < body.len() + 200 {
        return Err(3);
    }
    if parts.iter < FLOOR {
        return Err(5);
    }
    judge(body)?;
    let file = assemble(parts, body, &hmac(&parts.l, &covered(body)));
    let end = file.len() - 48;
    if file[152..end].chunks(16).any(|block| block == MARKER) {
        return Err(10);
    }
    Ok(file)
}
