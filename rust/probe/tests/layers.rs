//! The proved lower layers against the independent implementation, on random input.

use peer::chain::{cbc_decrypt, cbc_encrypt};
use peer::random::Random;
use peer::twofish::Twofish;

/// Lengths on each side of a block's and of the padding's bound, then random ones.
fn lengths(random: &mut Random, count: usize, limit: usize) -> Vec<usize> {
    let around = [0, 1, 55, 56, 57, 63, 64, 65, 119, 120, 127, 128, 129];
    let more = (around.len()..count).map(|_| random.below(limit));
    around.into_iter().chain(more.collect::<Vec<_>>()).collect()
}

#[test]
fn hashes() {
    let mut random = Random(1);
    for length in lengths(&mut random, 2000, 1000) {
        let message = random.bytes(length);
        assert_eq!(probe::hash(&message), peer::sha256::hash(&message), "{length} bytes");
    }
}

#[test]
fn hashes_in_pieces() {
    let mut random = Random(2);
    for length in lengths(&mut random, 1000, 1000) {
        let message = random.bytes(length);
        let whole = peer::sha256::hash(&message);
        for piece in [0, 1, 50, 63, 64, 65, 1 + random.below(200), length, length + 1, usize::MAX] {
            assert_eq!(probe::hash_in_pieces(&message, piece), whole, "{length} by {piece}");
        }
    }
}

#[test]
fn hmacs() {
    let mut random = Random(3);
    for length in lengths(&mut random, 2000, 1000) {
        let key_length = random.pick(&[0, 1, 20, 31, 32, 33, 63, 64, 65, 131]);
        let (key, message) = (random.bytes(key_length), random.bytes(length));
        assert_eq!(probe::hmac(&key, &message), peer::hmac::hmac(&key, &message));
    }
}

#[test]
fn stretches() {
    let mut random = Random(4);
    for case in 0..400 {
        let length = random.pick(&[0, 1, 22, 23, 24, 87, 88, 1023, 1024]);
        let iter = if case < 300 { case } else { 2048 + random.below(3) as u32 };
        let (passphrase, salt) = (random.bytes(length), random.array());
        let expected = peer::stretch::stretch(&passphrase, &salt, iter);
        assert_eq!(probe::stretch(&passphrase, &salt, iter), expected, "{length}, {iter}");
    }
}

/// 1,100 random keys, messages of 0 to 256 blocks, each length at least four times.
#[test]
fn chains() {
    let mut random = Random(5);
    for case in 0..1100 {
        let blocks = case % 257;
        let (key, iv) = (random.array(), random.array());
        let text = random.bytes(16 * blocks);
        let cipher = Twofish::new(&key);

        let (mut ours, mut theirs) = (random.bytes(16 * blocks), text.clone());
        probe::encrypt(&key, &iv, &text, &mut ours);
        cbc_encrypt(&cipher, &iv, &mut theirs);
        assert!(ours == theirs, "encryption, case {case}");
        assert_eq!(probe::decrypt(&key, &iv, &mut ours), blocks as u64);
        assert!(ours == text, "there and back, case {case}");

        assert_eq!(probe::decrypt(&key, &iv, &mut ours), blocks as u64);
        theirs.copy_from_slice(&text);
        cbc_decrypt(&cipher, &iv, &mut theirs);
        assert!(ours == theirs, "decryption, case {case}");
    }
}

#[test]
fn no_whole_number_of_blocks() {
    let mut random = Random(6);
    for length in (0..200).filter(|n| n % 16 != 0) {
        let (key, iv) = (random.array(), random.array());
        let text = random.bytes(length);
        let mut ours = text.clone();
        assert_eq!(probe::decrypt(&key, &iv, &mut ours), 0);
        assert_eq!(ours, text);
        probe::encrypt(&key, &iv, &random.bytes(length), &mut ours);
        assert_eq!(ours, text);
    }
}

/// What lies past the text stays; memory shorter than the text stays whole.
#[test]
fn room_for_the_encrypted() {
    let mut random = Random(7);
    for blocks in 1..20 {
        let (key, iv) = (random.array(), random.array());
        let (text, before) = (random.bytes(16 * blocks), random.bytes(16 * blocks + 40));
        let mut expected = text.clone();
        cbc_encrypt(&Twofish::new(&key), &iv, &mut expected);
        expected.extend(&before[16 * blocks..]);
        let mut ours = before.clone();
        probe::encrypt(&key, &iv, &text, &mut ours);
        assert!(ours == expected, "{blocks} blocks");

        let short = &before[..16 * blocks - 1];
        let mut ours = short.to_vec();
        probe::encrypt(&key, &iv, &text, &mut ours);
        assert!(ours == short, "{blocks} blocks in too little room");
    }
}
