//! A small generator, so that a run can be repeated from its seed.

/// SplitMix64 (Steele, Lea and Flood, "Fast Splittable Pseudorandom Number
/// Generators", 2014).
pub struct Random(u64);

impl Random {
    pub fn new(seed: u64) -> Random {
        Random(seed)
    }

    pub fn number(&mut self) -> u64 {
        self.0 = self.0.wrapping_add(0x9e3779b97f4a7c15);
        let mut z = self.0;
        z = (z ^ (z >> 30)).wrapping_mul(0xbf58476d1ce4e5b9);
        z = (z ^ (z >> 27)).wrapping_mul(0x94d049bb133111eb);
        z ^ (z >> 31)
    }

    /// A number less than `bound`.
    pub fn below(&mut self, bound: usize) -> usize {
        (self.number() % bound as u64) as usize
    }

    /// True once in `n` times.
    pub fn one_in(&mut self, n: usize) -> bool {
        self.below(n) == 0
    }

    pub fn pick<T: Copy>(&mut self, from: &[T]) -> T {
        from[self.below(from.len())]
    }

    pub fn octets(&mut self, len: usize) -> Vec<u8> {
        let mut octets = Vec::with_capacity(len + 8);
        while octets.len() < len {
            octets.extend(self.number().to_le_bytes());
        }
        octets.truncate(len);
        octets
    }

    /// The length of a message: most are short, some are long, and half lie
    /// within nine octets of a multiple of 64, where the padding's shape
    /// changes.
    pub fn length(&mut self) -> usize {
        const LONGEST: usize = 100_000;
        let bound = match self.below(8) {
            0 => LONGEST,
            1 | 2 => 4096,
            _ => 512,
        };
        let len = self.below(bound + 1);
        if self.below(2) == 0 {
            len
        } else {
            (len / 64 * 64 + self.below(19))
                .saturating_sub(9)
                .min(LONGEST)
        }
    }
}
