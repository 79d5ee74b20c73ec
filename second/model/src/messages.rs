//! The messages whose digests the programs print or compare.

use crate::bank::BANKS;

/// The 448-bit message of the FIPS 180 examples.
pub const FIPS_448: &[u8] = b"abcdbcdecdefdefgefghfghighijhijkijkljklmklmnlmnomnopnopq";

/// The 896-bit message of the FIPS 180 examples.
pub const FIPS_896: &[u8] = b"abcdefghbcdefghicdefghijdefghijkefghijklfghijklm\
    ghijklmnhijklmnoijklmnopjklmnopqklmnopqrlmnopqrsmnopqrstnopqrstu";

/// The digests of one million 'a' in the FIPS 180 examples, bank by bank.
pub const MILLION_A: [&str; BANKS.len()] = [
    "34aa973cd4c4daa4f61eeb2bdbad27316534016f",
    "cdc76e5c9914fb9281a1c7e284d73e67f1809a48a497200e046d39ccc7112cd0",
];

/// The sentence of 001's request.
pub const FOX: &[u8] = b"The quick brown fox jumps over the lazy dog";

/// The longest patterned message that is listed.
pub const LONGEST_PATTERN: usize = 300;

pub struct Message {
    pub name: String,
    pub bytes: Vec<u8>,
}

/// Every listed message, in the order of the printed list.
pub fn listed() -> Vec<Message> {
    let named: [(&str, &[u8]); 6] = [
        ("empty", b""),
        ("zeros", &[0; 4]),
        ("abc", b"abc"),
        ("fips448", FIPS_448),
        ("fips896", FIPS_896),
        ("fox", FOX),
    ];
    let named = named.map(|(name, bytes)| Message {
        name: name.to_string(),
        bytes: bytes.to_vec(),
    });
    let patterned = (0..=LONGEST_PATTERN).map(|n| Message {
        name: format!("{n:03}"),
        bytes: pattern(n),
    });
    named.into_iter().chain(patterned).collect()
}

/// The patterned message of `n` octets. Both the place and the length enter
/// each octet, so no patterned message begins another of a nearby length.
pub fn pattern(n: usize) -> Vec<u8> {
    (0..n).map(|i| (i * 31 + n * 17 + 5) as u8).collect()
}

#[cfg(test)]
mod tests {
    use super::{listed, pattern, FIPS_448, FIPS_896};

    #[test]
    fn fips_lengths() {
        assert_eq!(FIPS_448.len() * 8, 448);
        assert_eq!(FIPS_896.len() * 8, 896);
    }

    #[test]
    fn pattern_octets() {
        assert_eq!(pattern(0), []);
        assert_eq!(pattern(2), [39, 70]);
        assert_eq!(pattern(300)[299], ((299 * 31 + 300 * 17 + 5) % 256) as u8);
    }

    #[test]
    fn order() {
        let names: Vec<String> = listed().into_iter().map(|message| message.name).collect();
        let first = [
            "empty", "zeros", "abc", "fips448", "fips896", "fox", "000", "001",
        ];
        assert_eq!(names[..8], first);
        assert_eq!(names.len(), 6 + 301);
        assert_eq!(names[306], "300");
    }
}
