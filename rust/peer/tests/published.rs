//! The published vectors of the three standards.

use peer::hmac::hmac;
use peer::saved::{hex, unhex};
use peer::sha256::hash;
use peer::twofish::Twofish;

#[test]
fn fips_180_2_appendix_b() {
    let cases: [(&[u8], &str); 3] = [
        (b"abc", "ba7816bf8f01cfea414140de5dae2223b00361a396177a9cb410ff61f20015ad"),
        (
            b"abcdbcdecdefdefgefghfghighijhijkijkljklmklmnlmnomnopnopq",
            "248d6a61d20638b8e5c026930c3e6039a33ce45964ff2167f6ecedd419db06c1",
        ),
        (&[b'a'; 1_000_000], "cdc76e5c9914fb9281a1c7e284d73e67f1809a48a497200e046d39ccc7112cd0"),
    ];
    for (message, digest) in cases {
        assert_eq!(hex(&hash(message)), digest);
    }
}

#[test]
fn rfc_4231() {
    let counting: Vec<u8> = (1..=25).collect();
    let long = b"This is a test using a larger than block-size key and a larger than block-size \
                 data. The key needs to be hashed before being used by the HMAC algorithm.";
    let cases: [(&[u8], &[u8], &str); 7] = [
        (
            &[0x0b; 20],
            b"Hi There",
            "b0344c61d8db38535ca8afceaf0bf12b881dc200c9833da726e9376c2e32cff7",
        ),
        (
            b"Jefe",
            b"what do ya want for nothing?",
            "5bdcc146bf60754e6a042426089575c75a003f089d2739839dec58b964ec3843",
        ),
        (
            &[0xaa; 20],
            &[0xdd; 50],
            "773ea91e36800e46854db8ebd09181a72959098b3ef8c122d9635514ced565fe",
        ),
        (
            &counting,
            &[0xcd; 50],
            "82558a389a443c0ea4cc819899f2083a85f0faa3e578f8077a2e3ff46729665b",
        ),
        (&[0x0c; 20], b"Test With Truncation", "a3b6167473100ee06e0c796c2955552b"),
        (
            &[0xaa; 131],
            b"Test Using Larger Than Block-Size Key - Hash Key First",
            "60e431591ee0b67f0d8a26aacbf5b77f8e0bc6213728c5140546040f0ee37f54",
        ),
        (&[0xaa; 131], long, "9b09ffa71b942fcb27635fbcd5b0e944bfdc63644f0713938a7f51535c3a35e2"),
    ];
    for (key, message, tag) in cases {
        assert!(hex(&hmac(key, message)).starts_with(tag));
    }
}

/// ecb_tbl for 256-bit keys: each key is the last text and half the last key, each text the last
/// answer.
#[test]
fn twofish_ecb_tbl() {
    let (mut key, mut text) = ([0u8; 32], [0u8; 16]);
    for i in 1..=49 {
        let cipher = Twofish::new(&key);
        let encrypted = cipher.encrypt(&text);
        assert_eq!(cipher.decrypt(&encrypted), text);
        match i {
            1 => assert_eq!(hex(&encrypted), "57ff739d4dc92c1bd7fc01700cc8216f"),
            2 => assert_eq!(hex(&encrypted), "d43bb7556ea32e46f2a282b7d45b4e0d"),
            3 => assert_eq!(hex(&encrypted), "90afe91bb288544f2c32dc239b2635e6"),
            49 => assert_eq!(hex(&encrypted), "37fe26ff1cf66175f5ddf4c33b97a205"),
            _ => {}
        }
        let first = key;
        key[..16].copy_from_slice(&text);
        key[16..].copy_from_slice(&first[..16]);
        text = encrypted;
    }
}

/// The paper's intermediate-value vector for a 256-bit key.
#[test]
fn twofish_intermediate_values() {
    let key = unhex("0123456789abcdeffedcba987654321000112233445566778899aabbccddeeff");
    let cipher = Twofish::new(&key.try_into().unwrap());
    assert_eq!(hex(&cipher.encrypt(&[0; 16])), "37527be0052334b89f0cfccae87cfa20");
}
