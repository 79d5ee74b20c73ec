//! Requests, and each of their checks just inside and just outside.

use crate::step::Step;
use model::limits::{LONGEST, LONGEST_EVENT, REGISTERS};
use model::random::Random;
use model::request::{Head, HEAD, HEADER_SIZE};

#[derive(Clone)]
pub struct Asked {
    pub flags: u64,
    pub head: Head,
    /// The bytes after the head: the event, and bytes past the size.
    pub rest: Vec<u8>,
    /// How many bytes are lent at most.
    pub lent: usize,
    pub data: Vec<u8>,
}

impl Asked {
    /// A good request, whose event and data have these lengths.
    pub fn good(random: &mut Random, event: usize, data: usize) -> Asked {
        let version = random.number() as u16;
        let register = random.below(REGISTERS as usize) as u32;
        let kind = random.number() as u32;
        Asked {
            flags: 0,
            head: Head {
                version,
                ..Head::good(register, kind, event)
            },
            rest: random.octets(event),
            lent: usize::MAX,
            data: random.octets(data),
        }
    }

    pub fn with(mut self, flags: u64) -> Asked {
        self.flags |= flags;
        self
    }

    pub fn step(self) -> Step {
        let mut request = self.head.before(&self.rest);
        request.truncate(self.lent);
        Step::Request {
            flags: self.flags,
            request,
            data: self.data,
        }
    }

    /// The length of the event, if the size is good.
    pub fn event_len(&self) -> usize {
        (self.head.size as usize).saturating_sub(HEAD)
    }
}

/// A change of one field of a request.
#[derive(Clone, Copy)]
pub enum Variation {
    Size(u32),
    /// The size, from the number of bytes lent.
    SizeOfLent(i64),
    HeaderSize(u32),
    Register(u32),
    Kind(u32),
    /// An event of this length.
    Event(usize),
    /// So many bytes lent past the size.
    Past(usize),
    Lent(usize),
    Flag(u32),
    Data(usize),
}

use Variation::*;

/// Every change that is tried.
pub fn variations() -> Vec<Variation> {
    let mut all = Vec::new();
    let (head, header_size, high) = (HEAD as u32, HEADER_SIZE, 1 << 31);
    all.extend([0, header_size, head - 1, head, high, u32::MAX].map(Size));
    all.extend([-1, 0, 1, 256, 1 << 16].map(SizeOfLent));
    all.extend([0, header_size - 1, header_size, header_size + 1, head].map(HeaderSize));
    all.extend(
        [
            header_size << 8,
            header_size + (1 << 16),
            header_size + high,
        ]
        .map(HeaderSize),
    );
    all.extend([0, 16, 17, 22, REGISTERS - 1, REGISTERS].map(Register));
    all.extend([31, 255, 256, 1 << 16, high].map(Register));
    all.push(Register(u32::MAX));
    all.extend([0, 1, 3, 4, u32::MAX].map(Kind));
    all.extend(
        [
            0,
            1,
            LONGEST_EVENT - 1,
            LONGEST_EVENT,
            LONGEST_EVENT + 1,
            5_000,
        ]
        .map(Event),
    );
    all.extend([1, 4, 100, 5_000].map(Past));
    all.extend((0..=HEAD + 4).map(Lent));
    all.extend((0..64).map(Flag));
    all.extend([0, 1, 55, 56, 63, 64, 65, 119, 120, 128, 1_000].map(Data));
    all.extend([LONGEST - 1, LONGEST, LONGEST + 1, 70_000].map(Data));
    all
}

impl Variation {
    /// Takes longer to hash or to copy than the others.
    pub fn long(self) -> bool {
        matches!(self, Event(1_000..) | Past(1_000..) | Data(1_000..))
    }

    pub fn vary(self, asked: &mut Asked, random: &mut Random) {
        match self {
            Size(size) => asked.head.size = size,
            SizeOfLent(more) => {
                asked.head.size = ((HEAD + asked.rest.len()) as i64 + more) as u32;
            }
            HeaderSize(size) => asked.head.header_size = size,
            Register(register) => asked.head.register = register,
            Kind(kind) => asked.head.kind = kind,
            Event(len) => {
                asked.head.size = (HEAD + len) as u32;
                asked.rest = random.octets(len);
            }
            Past(len) => asked.rest.extend(random.octets(len)),
            Lent(len) => asked.lent = len,
            Flag(bit) => asked.flags |= 1 << bit,
            Data(len) => asked.data = random.octets(len),
        }
    }
}
