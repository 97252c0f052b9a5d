//! ECB and CBC over Twofish, in place, any whole number of blocks.

use crate::twofish::Twofish;

fn xor(a: &[u8; 16], b: &[u8; 16]) -> [u8; 16] {
    core::array::from_fn(|i| a[i] ^ b[i])
}

fn blocks(text: &mut [u8]) -> impl Iterator<Item = &mut [u8; 16]> {
    assert!(text.len() % 16 == 0, "whole blocks only");
    text.chunks_exact_mut(16).map(|b| b.try_into().unwrap())
}

pub fn ecb_encrypt(cipher: &Twofish, text: &mut [u8]) {
    for block in blocks(text) {
        *block = cipher.encrypt(block);
    }
}

pub fn ecb_decrypt(cipher: &Twofish, text: &mut [u8]) {
    for block in blocks(text) {
        *block = cipher.decrypt(block);
    }
}

pub fn cbc_encrypt(cipher: &Twofish, iv: &[u8; 16], text: &mut [u8]) {
    let mut before = *iv;
    for block in blocks(text) {
        *block = cipher.encrypt(&xor(block, &before));
        before = *block;
    }
}

pub fn cbc_decrypt(cipher: &Twofish, iv: &[u8; 16], text: &mut [u8]) {
    let mut before = *iv;
    for block in blocks(text) {
        let encrypted = *block;
        *block = xor(&cipher.decrypt(block), &before);
        before = encrypted;
    }
}
