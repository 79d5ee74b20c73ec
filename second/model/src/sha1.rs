//! SHA-1, FIPS 180-4, 6.1.

use crate::sha::{self, add, ch, maj};

/// Octets of a digest.
pub const DIGEST: usize = 20;

/// The initial hash value, FIPS 180-4, 5.3.1.
const INITIAL: [u32; 5] = [0x67452301, 0xefcdab89, 0x98badcfe, 0x10325476, 0xc3d2e1f0];

/// The constants, FIPS 180-4, 4.2.1, one for each twenty rounds.
const K: [u32; 4] = [0x5a827999, 0x6ed9eba1, 0x8f1bbcdc, 0xca62c1d6];

/// The SHA-1 digest of `message`.
pub fn digest(message: &[u8]) -> [u8; DIGEST] {
    sha::digest(INITIAL, compress, message)
}

/// One block, FIPS 180-4, 6.1.2.
fn compress(hash: &mut [u32; 5], block: &[u8]) {
    let w = schedule(block);
    let mut working = *hash;
    rounds(&mut working, ch, K[0], &w[..20]);
    rounds(&mut working, parity, K[1], &w[20..40]);
    rounds(&mut working, maj, K[2], &w[40..60]);
    rounds(&mut working, parity, K[3], &w[60..]);
    add(hash, working);
}

/// The rounds that share a function and a constant, FIPS 180-4, 6.1.2, step 3.
fn rounds(working: &mut [u32; 5], f: impl Fn(u32, u32, u32) -> u32, k: u32, w: &[u32]) {
    let [mut a, mut b, mut c, mut d, mut e] = *working;
    for &word in w {
        let t = a
            .rotate_left(5)
            .wrapping_add(f(b, c, d))
            .wrapping_add(e)
            .wrapping_add(k)
            .wrapping_add(word);
        e = d;
        d = c;
        c = b.rotate_left(30);
        b = a;
        a = t;
    }
    *working = [a, b, c, d, e];
}

/// The message schedule, FIPS 180-4, 6.1.2, step 1.
fn schedule(block: &[u8]) -> [u32; 80] {
    let mut w = sha::schedule(block);
    for t in 16..80 {
        w[t] = (w[t - 3] ^ w[t - 8] ^ w[t - 14] ^ w[t - 16]).rotate_left(1);
    }
    w
}

/// The function of FIPS 180-4, 4.1.1, that SHA-1 alone has.
fn parity(x: u32, y: u32, z: u32) -> u32 {
    x ^ y ^ z
}
