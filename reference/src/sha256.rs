//! FIPS 180-4, SHA-256, for messages of whole bytes. Names are the standard's.

/// Section 4.2.2: the first 32 bits of the fractional parts of the cube roots of the first 64
/// primes. A test computes them anew.
pub const K: [u32; 64] = [
    0x428a2f98, 0x71374491, 0xb5c0fbcf, 0xe9b5dba5, 0x3956c25b, 0x59f111f1, 0x923f82a4, 0xab1c5ed5,
    0xd807aa98, 0x12835b01, 0x243185be, 0x550c7dc3, 0x72be5d74, 0x80deb1fe, 0x9bdc06a7, 0xc19bf174,
    0xe49b69c1, 0xefbe4786, 0x0fc19dc6, 0x240ca1cc, 0x2de92c6f, 0x4a7484aa, 0x5cb0a9dc, 0x76f988da,
    0x983e5152, 0xa831c66d, 0xb00327c8, 0xbf597fc7, 0xc6e00bf3, 0xd5a79147, 0x06ca6351, 0x14292967,
    0x27b70a85, 0x2e1b2138, 0x4d2c6dfc, 0x53380d13, 0x650a7354, 0x766a0abb, 0x81c2c92e, 0x92722c85,
    0xa2bfe8a1, 0xa81a664b, 0xc24b8b70, 0xc76c51a3, 0xd192e819, 0xd6990624, 0xf40e3585, 0x106aa070,
    0x19a4c116, 0x1e376c08, 0x2748774c, 0x34b0bcb5, 0x391c0cb3, 0x4ed8aa4a, 0x5b9cca4f, 0x682e6ff3,
    0x748f82ee, 0x78a5636f, 0x84c87814, 0x8cc70208, 0x90befffa, 0xa4506ceb, 0xbef9a3f7, 0xc67178f2,
];

/// Section 5.3.3: the first 32 bits of the fractional parts of the square roots of the first eight
/// primes. A test computes them anew.
pub const INITIAL: [u32; 8] = [
    0x6a09e667, 0xbb67ae85, 0x3c6ef372, 0xa54ff53a, 0x510e527f, 0x9b05688c, 0x1f83d9ab, 0x5be0cd19,
];

/// The bytes of a block, and of a digest.
pub const BLOCK: usize = 64;
pub const DIGEST: usize = 32;

/// The digest of a message of any length.
pub fn sha256(message: &[u8]) -> [u8; DIGEST] {
    let mut hash = INITIAL;
    for block in padded(message).chunks(BLOCK) {
        hash = compressed(hash, block);
    }
    let mut digest = [0; DIGEST];
    for (bytes, word) in digest.chunks_mut(4).zip(hash) {
        bytes.copy_from_slice(&word.to_be_bytes());
    }
    digest
}

/// Section 5.1.1: the message, a one bit, zeros, and the count of its bits in eight bytes.
fn padded(message: &[u8]) -> Vec<u8> {
    let mut bytes = message.to_vec();
    bytes.push(0x80);
    while bytes.len() % BLOCK != BLOCK - 8 {
        bytes.push(0);
    }
    let bits = 8 * u64::try_from(message.len()).expect("a length fits 64 bits");
    bytes.extend(bits.to_be_bytes());
    bytes
}

/// Section 6.2.2: the hash value after one more block.
fn compressed(hash: [u32; 8], block: &[u8]) -> [u32; 8] {
    let w = schedule(block);
    let [mut a, mut b, mut c, mut d, mut e, mut f, mut g, mut h] = hash;
    for t in 0..64 {
        let t1 = wrapping_sum(&[h, big_sigma_1(e), ch(e, f, g), K[t], w[t]]);
        let t2 = big_sigma_0(a).wrapping_add(maj(a, b, c));
        h = g;
        g = f;
        f = e;
        e = d.wrapping_add(t1);
        d = c;
        c = b;
        b = a;
        a = t1.wrapping_add(t2);
    }
    let working = [a, b, c, d, e, f, g, h];
    std::array::from_fn(|i| hash[i].wrapping_add(working[i]))
}

/// The message schedule of a block.
fn schedule(block: &[u8]) -> [u32; 64] {
    let mut w = [0; 64];
    for t in 0..16 {
        let bytes = [0, 1, 2, 3].map(|k| block[4 * t + k]);
        w[t] = u32::from_be_bytes(bytes);
    }
    for t in 16..64 {
        let terms = [
            small_sigma_1(w[t - 2]),
            w[t - 7],
            small_sigma_0(w[t - 15]),
            w[t - 16],
        ];
        w[t] = wrapping_sum(&terms);
    }
    w
}

/// The sum modulo 2^32.
fn wrapping_sum(terms: &[u32]) -> u32 {
    terms.iter().fold(0, |sum, &term| sum.wrapping_add(term))
}

// Section 4.1.2: the six functions.

fn ch(x: u32, y: u32, z: u32) -> u32 {
    (x & y) ^ (!x & z)
}

fn maj(x: u32, y: u32, z: u32) -> u32 {
    (x & y) ^ (x & z) ^ (y & z)
}

fn big_sigma_0(x: u32) -> u32 {
    x.rotate_right(2) ^ x.rotate_right(13) ^ x.rotate_right(22)
}

fn big_sigma_1(x: u32) -> u32 {
    x.rotate_right(6) ^ x.rotate_right(11) ^ x.rotate_right(25)
}

fn small_sigma_0(x: u32) -> u32 {
    x.rotate_right(7) ^ x.rotate_right(18) ^ (x >> 3)
}

fn small_sigma_1(x: u32) -> u32 {
    x.rotate_right(17) ^ x.rotate_right(19) ^ (x >> 10)
}
