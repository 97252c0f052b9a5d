//! Twofish with a 32-byte key, by its paper, section 4.

type Nibbles = [[u8; 16]; 4];

const T0: Nibbles = [
    nibbles(0x817D6F320B59ECA4),
    nibbles(0xECB81235F4A6709D),
    nibbles(0xBA5E6D90C8F32471),
    nibbles(0xD7F4126E9B3085CA),
];

const T1: Nibbles = [
    nibbles(0x28BDF76E31940AC5),
    nibbles(0x1E2B4C376DA5F908),
    nibbles(0x4C75169A0ED82B3F),
    nibbles(0xB951C3DE647F208A),
];

const Q0: [u8; 256] = permutation(&T0);
const Q1: [u8; 256] = permutation(&T1);
const BY_5B: [u8; 256] = multiples(0x5B, 0x169);
const BY_EF: [u8; 256] = multiples(0xEF, 0x169);

const RS: [[u8; 8]; 4] = [
    [0x01, 0xA4, 0x55, 0x87, 0x5A, 0x58, 0xDB, 0x9E],
    [0xA4, 0x56, 0x82, 0xF3, 0x1E, 0xC6, 0x68, 0xE5],
    [0x02, 0xA1, 0xFC, 0xC1, 0x47, 0xAE, 0x3D, 0x19],
    [0xA4, 0x55, 0x87, 0x5A, 0x58, 0xDB, 0x9E, 0x03],
];

/// The sixteen digits as they are written, first digit first.
const fn nibbles(digits: u64) -> [u8; 16] {
    let mut out = [0; 16];
    let mut i = 0;
    while i < 16 {
        out[i] = (digits >> (60 - 4 * i)) as u8 & 15;
        i += 1;
    }
    out
}

const fn mixed(a: u8, b: u8) -> (u8, u8) {
    let turned = (b >> 1 | b << 3) & 15;
    (a ^ b, a ^ turned ^ (8 * (a & 1)))
}

/// Section 4.3.5: a byte permutation from four 4-bit ones.
const fn permutation(t: &Nibbles) -> [u8; 256] {
    let mut out = [0; 256];
    let mut x = 0;
    while x < 256 {
        let (a1, b1) = mixed((x / 16) as u8, (x % 16) as u8);
        let (a3, b3) = mixed(t[0][a1 as usize], t[1][b1 as usize]);
        out[x] = 16 * t[3][b3 as usize] + t[2][a3 as usize];
        x += 1;
    }
    out
}

/// The product in GF(2^8) modulo the polynomial.
const fn times(a: u8, b: u8, polynomial: u16) -> u8 {
    let (mut sum, mut a, mut b) = (0u16, a as u16, b);
    while b > 0 {
        if b & 1 == 1 {
            sum ^= a;
        }
        a <<= 1;
        if a & 0x100 != 0 {
            a ^= polynomial;
        }
        b >>= 1;
    }
    sum as u8
}

const fn multiples(factor: u8, polynomial: u16) -> [u8; 256] {
    let mut out = [0; 256];
    let mut x = 0;
    while x < 256 {
        out[x] = times(x as u8, factor, polynomial);
        x += 1;
    }
    out
}

/// The MDS matrix times the four bytes, as a little-endian word.
fn mds(y: [u8; 4]) -> u32 {
    let [one, five, e] = [y, y.map(|b| BY_5B[b as usize]), y.map(|b| BY_EF[b as usize])];
    u32::from_le_bytes([
        one[0] ^ e[1] ^ five[2] ^ five[3],
        five[0] ^ e[1] ^ e[2] ^ one[3],
        e[0] ^ five[1] ^ one[2] ^ e[3],
        e[0] ^ one[1] ^ e[2] ^ five[3],
    ])
}

/// Section 4.3.2, for four words of key; byte j of the input is permuted five times.
fn h(x: u32, l: &[u32; 4]) -> u32 {
    const ORDER: [[&[u8; 256]; 4]; 5] = [
        [&Q1, &Q0, &Q0, &Q1],
        [&Q1, &Q1, &Q0, &Q0],
        [&Q0, &Q1, &Q0, &Q1],
        [&Q0, &Q0, &Q1, &Q1],
        [&Q1, &Q0, &Q1, &Q0],
    ];
    let mut y = x.to_le_bytes();
    for (stage, permutations) in ORDER.iter().enumerate() {
        let key = if stage < 4 { l[3 - stage].to_le_bytes() } else { [0; 4] };
        y = core::array::from_fn(|j| permutations[j][y[j] as usize] ^ key[j]);
    }
    mds(y)
}

/// The vector S, in the reversed order in which g uses it (4.3).
fn s_words(key: &[u8; 32]) -> [u32; 4] {
    core::array::from_fn(|i| {
        let m = &key[8 * (3 - i)..8 * (3 - i) + 8];
        u32::from_le_bytes(
            RS.map(|row| row.iter().zip(m).fold(0, |sum, (a, b)| sum ^ times(*a, *b, 0x14D))),
        )
    })
}

/// The words K (4.3).
pub fn subkeys(key: &[u8; 32]) -> [u32; 40] {
    const RHO: u32 = 0x01010101;
    let m: [u32; 8] =
        core::array::from_fn(|i| u32::from_le_bytes(key[4 * i..4 * i + 4].try_into().unwrap()));
    let even = [m[0], m[2], m[4], m[6]];
    let odd = [m[1], m[3], m[5], m[7]];
    let mut k = [0; 40];
    for i in 0..20 {
        let a = h(2 * i * RHO, &even);
        let b = h((2 * i + 1) * RHO, &odd).rotate_left(8);
        k[2 * i as usize] = a.wrapping_add(b);
        k[2 * i as usize + 1] = a.wrapping_add(b).wrapping_add(b).rotate_left(9);
    }
    k
}

pub struct Twofish {
    k: [u32; 40],
    s: [u32; 4],
}

impl Twofish {
    pub fn new(key: &[u8; 32]) -> Twofish {
        Twofish { k: subkeys(key), s: s_words(key) }
    }

    /// The function F of round r (4.1).
    fn f(&self, r: usize, r0: u32, r1: u32) -> (u32, u32) {
        let t0 = h(r0, &self.s);
        let t1 = h(r1.rotate_left(8), &self.s);
        let sum = t0.wrapping_add(t1);
        (sum.wrapping_add(self.k[2 * r + 8]), sum.wrapping_add(t1).wrapping_add(self.k[2 * r + 9]))
    }

    pub fn encrypt(&self, block: &[u8; 16]) -> [u8; 16] {
        let p = words(block);
        let mut r: [u32; 4] = core::array::from_fn(|i| p[i] ^ self.k[i]);
        for round in 0..16 {
            let (f0, f1) = self.f(round, r[0], r[1]);
            r = [(r[2] ^ f0).rotate_right(1), r[3].rotate_left(1) ^ f1, r[0], r[1]];
        }
        bytes(core::array::from_fn(|i| r[(i + 2) % 4] ^ self.k[i + 4]))
    }

    pub fn decrypt(&self, block: &[u8; 16]) -> [u8; 16] {
        let c = words(block);
        let mut r: [u32; 4] = core::array::from_fn(|i| c[(i + 2) % 4] ^ self.k[(i + 2) % 4 + 4]);
        for round in (0..16).rev() {
            let (f0, f1) = self.f(round, r[2], r[3]);
            r = [r[2], r[3], r[0].rotate_left(1) ^ f0, (r[1] ^ f1).rotate_right(1)];
        }
        bytes(core::array::from_fn(|i| r[i] ^ self.k[i]))
    }
}

fn words(block: &[u8; 16]) -> [u32; 4] {
    core::array::from_fn(|i| u32::from_le_bytes(block[4 * i..4 * i + 4].try_into().unwrap()))
}

fn bytes(w: [u32; 4]) -> [u8; 16] {
    core::array::from_fn(|i| w[i / 4].to_le_bytes()[i % 4])
}
