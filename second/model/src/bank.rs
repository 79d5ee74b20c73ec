//! Banks and their registers, 01, "Banks".

use crate::limits::REGISTERS;
use crate::{sha1, sha256};
use std::ops::Range;

/// What a bank knows.
pub struct Bank {
    pub name: &'static str,
    pub bit: u32,
    pub algorithm: u16,
    pub digest_len: usize,
    /// Writes the digest of a message.
    pub hash: fn(&[u8], &mut [u8]),
}

/// The table of 01, "Banks", in its order. All that goes over banks or bitmaps
/// goes over it.
pub const BANKS: &[Bank] = &[
    Bank {
        name: "sha1",
        bit: SHA1,
        algorithm: 0x0004,
        digest_len: sha1::DIGEST,
        hash: |message, digest| digest.copy_from_slice(&sha1::digest(message)),
    },
    Bank {
        name: "sha256",
        bit: SHA256,
        algorithm: 0x000b,
        digest_len: sha256::DIGEST,
        hash: |message, digest| digest.copy_from_slice(&sha256::digest(message)),
    },
];

// The bits in a bitmap.
pub const SHA1: u32 = 1;
pub const SHA256: u32 = 2;

/// The bitmap of every bank; the bitmaps are 1 to this.
pub const ALL: u32 = (1 << BANKS.len()) - 1;

/// Bytes of the registers of every bank.
pub const REGISTER_BYTES: usize = register_bytes(BANKS);

/// The registers of every bank: those of each, bank after bank in the table's
/// order.
pub type Registers = [u8; REGISTER_BYTES];

/// Bytes of the longest digest.
pub const LONGEST_DIGEST: usize = longest_digest(BANKS);

const fn register_bytes(banks: &[Bank]) -> usize {
    match banks {
        [] => 0,
        [bank, rest @ ..] => REGISTERS as usize * bank.digest_len + register_bytes(rest),
    }
}

const fn longest_digest(banks: &[Bank]) -> usize {
    match banks {
        [] => 0,
        [bank, rest @ ..] if bank.digest_len > longest_digest(rest) => bank.digest_len,
        [_, rest @ ..] => longest_digest(rest),
    }
}

impl Bank {
    pub fn digest(&self, message: &[u8]) -> Vec<u8> {
        let mut digest = vec![0; self.digest_len];
        (self.hash)(message, &mut digest);
        digest
    }

    /// 01: extending a register "sets it to the bank's hash of (old value,
    /// then digest)".
    pub fn extend(&self, value: &mut [u8], digest: &[u8]) {
        let mut message = [0; 2 * LONGEST_DIGEST];
        let message = &mut message[..2 * self.digest_len];
        let (old, new) = message.split_at_mut(self.digest_len);
        old.copy_from_slice(value);
        new.copy_from_slice(digest);
        (self.hash)(message, value);
    }

    /// Where a register lies among the registers of every bank.
    pub fn register(&self, register: u32) -> Range<usize> {
        let before = BANKS.partition_point(|earlier| earlier.bit < self.bit);
        let start = register_bytes(&BANKS[..before]) + register as usize * self.digest_len;
        start..start + self.digest_len
    }
}

/// The active banks of a bitmap, in the table's order.
pub fn active(bitmap: u32) -> impl Iterator<Item = &'static Bank> {
    BANKS.iter().filter(move |bank| bitmap & bank.bit != 0)
}

/// A digest and the bank whose hash it is.
pub struct Digest {
    pub bank: &'static Bank,
    pub bytes: Vec<u8>,
}

/// The digests of `data`, one for each active bank.
pub fn digests(bitmap: u32, data: &[u8]) -> Vec<Digest> {
    let digest = |bank: &'static Bank| Digest {
        bank,
        bytes: bank.digest(data),
    };
    active(bitmap).map(digest).collect()
}

/// The SHA-1 digest among them, if that bank is active.
pub fn sha1_of(digests: &[Digest]) -> Option<&[u8]> {
    let sha1 = digests.iter().find(|digest| digest.bank.bit == SHA1);
    sha1.map(|digest| &digest.bytes[..])
}

/// 01: "all bits one in 17 to 22, all zero elsewhere"; the registers of every
/// bank, active or not.
pub fn reset() -> Registers {
    let mut registers = [0; REGISTER_BYTES];
    for bank in BANKS {
        for register in 17..=22 {
            registers[bank.register(register)].fill(0xff);
        }
    }
    registers
}

/// Extends a register in each bank that a digest is of.
pub fn extend(registers: &mut Registers, register: u32, digests: &[Digest]) {
    for Digest { bank, bytes } in digests {
        bank.extend(&mut registers[bank.register(register)], bytes);
    }
}

#[cfg(test)]
mod tests {
    use super::*;
    use crate::messages::{FIPS_448, FIPS_896, MILLION_A};
    use crate::octets::hex;

    /// A message of the FIPS 180 examples, and its digest by each bank's hash.
    type Example<'a> = (&'a [u8], [&'a str; BANKS.len()]);

    #[test]
    fn fips_examples() {
        let examples: [Example; 5] = [
            (
                b"",
                [
                    "da39a3ee5e6b4b0d3255bfef95601890afd80709",
                    "e3b0c44298fc1c149afbf4c8996fb92427ae41e4649b934ca495991b7852b855",
                ],
            ),
            (
                b"abc",
                [
                    "a9993e364706816aba3e25717850c26c9cd0d89d",
                    "ba7816bf8f01cfea414140de5dae2223b00361a396177a9cb410ff61f20015ad",
                ],
            ),
            (
                FIPS_448,
                [
                    "84983e441c3bd26ebaae4aa1f95129e5e54670f1",
                    "248d6a61d20638b8e5c026930c3e6039a33ce45964ff2167f6ecedd419db06c1",
                ],
            ),
            (
                FIPS_896,
                [
                    "a49b2446a02c645bf419f995b67091253a04a259",
                    "cf5b16a778af8380036ce59e7b0492370b249b11e8f07a51afac45037afee9d1",
                ],
            ),
            (&[b'a'; 1_000_000], MILLION_A),
        ];
        for (message, wanted) in examples {
            for (bank, wanted) in BANKS.iter().zip(wanted) {
                assert_eq!(hex(&bank.digest(message)), wanted);
            }
        }
    }

    #[test]
    fn bits() {
        for (place, bank) in BANKS.iter().enumerate() {
            assert_eq!(bank.bit, 1 << place);
        }
        assert_eq!(ALL, 3);
    }

    #[test]
    fn active_banks() {
        let algorithms =
            |bitmap| -> Vec<u16> { active(bitmap).map(|bank| bank.algorithm).collect() };
        assert_eq!(algorithms(0), []);
        assert_eq!(algorithms(1), [0x0004]);
        assert_eq!(algorithms(2), [0x000b]);
        assert_eq!(algorithms(3), [0x0004, 0x000b]);
    }

    #[test]
    fn registers_follow_each_other() {
        let mut end = 0;
        for bank in BANKS {
            for register in 0..REGISTERS {
                let range = bank.register(register);
                assert_eq!(range.start, end);
                end = range.end;
            }
        }
        assert_eq!(end, REGISTER_BYTES);
        assert_eq!(end, 24 * 20 + 24 * 32);
    }

    #[test]
    fn reset_values() {
        let registers = reset();
        assert!(registers[..340].iter().all(|&byte| byte == 0));
        assert!(registers[340..460].iter().all(|&byte| byte == 0xff));
        assert!(registers[460..1024].iter().all(|&byte| byte == 0));
        assert!(registers[1024..1216].iter().all(|&byte| byte == 0xff));
        assert!(registers[1216..].iter().all(|&byte| byte == 0));
    }

    #[test]
    fn extend_changes_one_register() {
        let before = reset();
        let mut registers = before;
        extend(&mut registers, 17, &digests(2, b"abc"));
        let expected = sha256::digest(&[&[0xff; 32], &sha256::digest(b"abc")[..]].concat());
        assert_eq!(registers[1024..1056], expected);
        assert_eq!(registers[..1024], before[..1024]);
        assert_eq!(registers[1056..], before[1056..]);
    }
}
