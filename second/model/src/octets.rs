//! Octets as text and as little-endian numbers.

/// Two lower-case hexadecimal digits for each octet.
pub fn hex(octets: &[u8]) -> String {
    octets.iter().map(|octet| format!("{octet:02x}")).collect()
}

/// The octets of such a text.
pub fn from_hex(hex: &str) -> Vec<u8> {
    (0..hex.len())
        .step_by(2)
        .map(|i| u8::from_str_radix(&hex[i..i + 2], 16).expect("two hexadecimal digits"))
        .collect()
}

fn part<const N: usize>(octets: &[u8], place: usize) -> [u8; N] {
    std::array::from_fn(|i| octets[place + i])
}

pub fn u16_at(octets: &[u8], place: usize) -> u16 {
    u16::from_le_bytes(part(octets, place))
}

pub fn u32_at(octets: &[u8], place: usize) -> u32 {
    u32::from_le_bytes(part(octets, place))
}

pub fn u64_at(octets: &[u8], place: usize) -> u64 {
    u64::from_le_bytes(part(octets, place))
}
