//! Bytes lent to a call, between guards that it must not touch.

#[derive(Clone, PartialEq)]
pub struct Lent {
    bytes: Vec<u8>,
    start: usize,
    end: usize,
}

const GUARD: usize = 64;

impl Lent {
    /// The guard before has another length for another `shift`, so that the
    /// bytes lie at any alignment.
    pub fn new(lent: &[u8], shift: usize) -> Lent {
        let start = GUARD + shift % 16;
        let end = start + lent.len();
        let guard = |i: usize| (i * 37 + 11) as u8;
        let mut bytes = Vec::with_capacity(end + GUARD);
        bytes.extend((0..start).map(guard));
        bytes.extend(lent);
        bytes.extend((0..GUARD).map(guard));
        Lent { bytes, start, end }
    }

    pub fn get(&self) -> &[u8] {
        &self.bytes[self.start..self.end]
    }

    pub fn get_mut(&mut self) -> &mut [u8] {
        &mut self.bytes[self.start..self.end]
    }

    /// Says where two of them differ first.
    pub fn difference(&self, other: &Lent) -> Option<String> {
        let pairs = self.bytes.iter().zip(&other.bytes).enumerate();
        let mut differing = pairs.filter(|(_, (a, b))| a != b);
        let (place, (a, b)) = differing.next()?;
        let more = differing.count();
        let place = place as i64 - self.start as i64;
        let outside = if place < 0 || place as usize >= self.get().len() {
            ", outside the buffer"
        } else {
            ""
        };
        Some(format!(
            "{a:#04x} for {b:#04x} at {place}{outside}, and {more} bytes more"
        ))
    }
}
