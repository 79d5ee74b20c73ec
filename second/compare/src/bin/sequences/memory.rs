//! What a caller of the library lends.

use compare::lent::Lent;
use model::replay::REPLAY_BYTES;
use model::service::{Buffers, STATE_BYTES};
use std::ops::{Index, IndexMut};

/// The buffers of the stores.
#[derive(Clone, Copy, PartialEq)]
pub enum Buffer {
    Log12,
    Agile,
    Table,
}

pub const BUFFERS: [Buffer; 3] = [Buffer::Log12, Buffer::Agile, Buffer::Table];

impl Buffer {
    pub fn name(self) -> &'static str {
        match self {
            Buffer::Log12 => "1.2",
            Buffer::Agile => "agile",
            Buffer::Table => "table",
        }
    }
}

/// What is lent as the stores' buffers, in the order of `BUFFERS`.
#[derive(Clone, PartialEq)]
pub struct Stores([Lent; 3]);

impl Stores {
    pub fn lend(&mut self) -> Buffers<'_> {
        let [log_1_2, agile, table] = &mut self.0;
        Buffers {
            log_1_2: log_1_2.get_mut(),
            agile: agile.get_mut(),
            table: table.get_mut(),
        }
    }
}

impl Index<Buffer> for Stores {
    type Output = Lent;

    fn index(&self, buffer: Buffer) -> &Lent {
        &self.0[buffer as usize]
    }
}

impl IndexMut<Buffer> for Stores {
    fn index_mut(&mut self, buffer: Buffer) -> &mut Lent {
        &mut self.0[buffer as usize]
    }
}

/// All that is lent to the calls of one side.
#[derive(Clone, PartialEq)]
pub struct Memory {
    pub state: Lent,
    pub stores: Stores,
    pub request: Lent,
    pub data: Lent,
    /// A replay, and the log that it is a replay of.
    pub replay: Lent,
    pub log: Lent,
    /// The answer record of a reading or of a slice.
    pub answer: Lent,
}

impl Memory {
    /// No buffers yet, and a state and a replay that no call has written.
    pub fn new() -> Memory {
        let none = Lent::new(&[], 0);
        Memory {
            state: Lent::new(&[0xa5; STATE_BYTES], 0),
            stores: Stores([(); 3].map(|_| none.clone())),
            request: none.clone(),
            data: none.clone(),
            replay: Lent::new(&[0xa5; REPLAY_BYTES], 0),
            log: none.clone(),
            answer: none,
        }
    }

    /// Says where `self` differs from what was wanted.
    pub fn differences(&self, wanted: &Memory) -> Vec<String> {
        let parts = [
            ("state", &self.state, &wanted.state),
            ("request", &self.request, &wanted.request),
            ("data", &self.data, &wanted.data),
            ("replay", &self.replay, &wanted.replay),
            ("log", &self.log, &wanted.log),
            ("answer record", &self.answer, &wanted.answer),
        ];
        let words = |(name, a, b): (&str, &Lent, &Lent)| {
            let difference = a.difference(b)?;
            Some(format!("{name}: {difference}"))
        };
        let stores =
            BUFFERS.map(|buffer| (buffer.name(), &self.stores[buffer], &wanted.stores[buffer]));
        let parts = parts.into_iter().chain(stores);
        parts.filter_map(words).collect()
    }
}
