//! What SHA-1 and SHA-256 share, FIPS 180-4.

/// Octets of a block, FIPS 180-4, figure 1.
const BLOCK: usize = 64;

/// Hashes the blocks of the padded message one after another, beginning with
/// the initial hash value, FIPS 180-4, 6.1.2 and 6.2.2.
pub fn digest<const WORDS: usize, const OCTETS: usize>(
    initial: [u32; WORDS],
    compress: impl Fn(&mut [u32; WORDS], &[u8]),
    message: &[u8],
) -> [u8; OCTETS] {
    let mut hash = initial;
    let blocks = message.chunks_exact(BLOCK);
    let end = Padded::new(blocks.remainder(), message.len());
    for block in blocks.chain(end.blocks()) {
        compress(&mut hash, block);
    }
    let mut digest = [0; OCTETS];
    for (octets, word) in digest.chunks_exact_mut(4).zip(hash) {
        octets.copy_from_slice(&word.to_be_bytes());
    }
    digest
}

/// The end of the padded message, FIPS 180-4, 5.1.1: one block, or two.
struct Padded {
    bytes: [u8; 2 * BLOCK],
    len: usize,
}

impl Padded {
    /// Pads `rest`, the octets of the message after its last whole block;
    /// `message_len` counts the octets of the whole message.
    fn new(rest: &[u8], message_len: usize) -> Padded {
        let mut bytes = [0; 2 * BLOCK];
        bytes[..rest.len()].copy_from_slice(rest);
        bytes[rest.len()] = 0x80;
        // The octet 0x80 and the length take nine octets after the rest.
        let len = if rest.len() + 9 <= BLOCK {
            BLOCK
        } else {
            2 * BLOCK
        };
        let bits = message_len as u64 * 8;
        bytes[len - 8..len].copy_from_slice(&bits.to_be_bytes());
        Padded { bytes, len }
    }

    fn blocks(&self) -> impl Iterator<Item = &[u8]> {
        self.bytes[..self.len].chunks_exact(BLOCK)
    }
}

/// The block's words as the beginning of a message schedule, FIPS 180-4, 6.1.2
/// and 6.2.2, step 1.
pub fn schedule<const ROUNDS: usize>(block: &[u8]) -> [u32; ROUNDS] {
    let mut w = [0; ROUNDS];
    for (word, octets) in w.iter_mut().zip(block.chunks_exact(4)) {
        *word = u32::from_be_bytes([octets[0], octets[1], octets[2], octets[3]]);
    }
    w
}

/// The last step of a block, FIPS 180-4, 6.1.2 and 6.2.2, step 4.
pub fn add<const WORDS: usize>(hash: &mut [u32; WORDS], working: [u32; WORDS]) {
    for (h, v) in hash.iter_mut().zip(working) {
        *h = h.wrapping_add(v);
    }
}

// The functions that 4.1.1 and 4.1.2 both have.

pub fn ch(x: u32, y: u32, z: u32) -> u32 {
    (x & y) ^ (!x & z)
}

pub fn maj(x: u32, y: u32, z: u32) -> u32 {
    (x & y) ^ (x & z) ^ (y & z)
}
