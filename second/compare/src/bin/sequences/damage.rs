//! States damaged in every way that 01 lists under "A state doesn't belong
//! when", each just inside and just outside, and bytes that encode no state;
//! replays damaged in every way that 35 lists.

use crate::memory::{Buffer, Memory};
use crate::step::Step;
use crate::stores::{about_headers, any_bitmaps};
use model::bank::{ALL, SHA1};
use model::entry::LEN_1_2;
use model::limits::HIGHEST_COUNT;
use model::service::at;
use model::store::TABLE_START;

/// A field of a state's or a replay's layout.
#[derive(Clone, Copy)]
pub struct Field {
    name: &'static str,
    place: usize,
    len: usize,
}

pub const fn field(name: &'static str, place: usize, len: usize) -> Field {
    Field { name, place, len }
}

pub const BITMAP: Field = field("bitmap", 0, 4);
pub const TABLE_USED: Field = field("table used", at::TABLE_USED, 8);
const TABLE_CLOSED: Field = field("table closed", at::TABLE_CLOSED, 1);
const COUNT: Field = field("table count", at::COUNT, 8);
pub const ARMED: Field = field("armed", at::ARMED, 1);
const FULL: Field = field("11 given", at::FULL, 1);

pub const FORMAT: Field = field("format", 0, 4);
pub const BANKS: Field = field("banks", 4, 4);
pub const PLACE: Field = field("place", 8, 8);

/// The fields of a log's marks.
#[derive(Clone, Copy)]
pub struct Marks {
    pub used: Field,
    closed: Field,
    has_last: Field,
    last: Field,
}

const fn marks_at(place: usize, names: [&'static str; 4]) -> Marks {
    let [used, closed, has_last, last] = names;
    Marks {
        used: field(used, place, 8),
        closed: field(closed, place + 8, 1),
        has_last: field(has_last, place + 9, 1),
        last: field(last, place + 10, 8),
    }
}

pub const LOG_1_2: Marks = marks_at(
    at::LOG_1_2,
    [
        "1.2 used",
        "1.2 closed",
        "1.2 has a last entry",
        "1.2 last entry",
    ],
);

pub const AGILE: Marks = marks_at(
    at::AGILE,
    [
        "agile used",
        "agile closed",
        "agile has a last entry",
        "agile last entry",
    ],
);

impl Field {
    /// The field in the bytes; 0 where they are too few.
    pub fn get(self, bytes: &[u8]) -> u64 {
        let bytes = bytes.get(self.place..self.place + self.len);
        let bytes = bytes.unwrap_or(&[]).iter().rev();
        bytes.fold(0, |value, &byte| value << 8 | u64::from(byte))
    }

    fn put(self, into: &mut [u8], value: u64) {
        let bytes = &value.to_le_bytes()[..self.len];
        into[self.place..self.place + self.len].copy_from_slice(bytes);
    }
}

/// Fields and what they are changed to.
pub type Damage = Vec<(Field, u64)>;

/// The step that lends the damaged state.
pub fn step(state: &[u8], damage: &Damage) -> Step {
    let (state, words) = damaged(state, damage);
    Step::State(state, words)
}

/// The step that lends the damaged replay.
pub fn replay_step(replay: &[u8], damage: &Damage) -> Step {
    let (replay, words) = damaged(replay, damage);
    Step::Replay(replay, words)
}

/// The damaged bytes, and what is changed.
pub fn damaged(bytes: &[u8], damage: &Damage) -> (Vec<u8>, String) {
    let mut bytes = bytes.to_vec();
    for &(field, value) in damage {
        field.put(&mut bytes, value);
    }
    let words: Vec<String> = damage
        .iter()
        .map(|(field, value)| format!("{} {value}", field.name))
        .collect();
    (bytes, words.join(", "))
}

/// The bytes with one bit turned, and what is changed.
pub fn turned_bit(bytes: &[u8], bit: usize) -> (Vec<u8>, String) {
    let (place, bit) = (bit / 8, bit % 8);
    let mut bytes = bytes.to_vec();
    bytes[place] ^= 1 << bit;
    (bytes, format!("bit {bit} of byte {place} turned"))
}

/// Formats and banks that a beginning gives, and that none gives; places about
/// the log's length and in front of it.
pub fn replay_damages(log: u64) -> Vec<Damage> {
    let high = 1 << 31;
    let formats = [0, 1, 2, 3, 4, 0x101, 0x102, 0x1_0001, high + 1, high + 2];
    let banks = any_bitmaps().into_iter().chain([u32::MAX]);
    let banks: Vec<u64> = banks.map(u64::from).collect();
    let mut all = Vec::new();
    for format in formats {
        for &banks in &banks {
            all.push(vec![(FORMAT, format), (BANKS, banks)]);
            all.push(vec![(FORMAT, format), (BANKS, banks), (PLACE, 0)]);
        }
    }
    let near = [vec![0, 1, LEN_1_2], about_headers()].concat();
    let near = near.into_iter().map(|place| place as u64);
    for place in around(log).into_iter().chain(near) {
        all.push(vec![(PLACE, place)]);
        all.push(vec![(BANKS, u64::from(ALL + 1)), (PLACE, place)]);
    }
    all
}

/// A store used up to `used`; the last byte is a log's last entry.
pub fn used(buffer: Buffer, used: u64) -> Damage {
    let log = match buffer {
        Buffer::Log12 => LOG_1_2,
        Buffer::Agile => AGILE,
        Buffer::Table => return vec![(TABLE_USED, used)],
    };
    vec![(log.used, used), (log.has_last, 1), (log.last, used - 1)]
}

/// Every damage to the state that is lent, which is as long as one.
pub fn damages(memory: &Memory) -> Vec<Damage> {
    let mut all = bitmaps();
    all.extend(marks(LOG_1_2, memory, Buffer::Log12));
    all.extend(marks(AGILE, memory, Buffer::Agile));
    all.extend(table(memory));
    all.extend(inactive());
    all.extend(headers());
    for flag in [ARMED, FULL] {
        all.extend(flag_bytes(flag));
    }
    all
}

fn bitmaps() -> Vec<Damage> {
    let damage = |bitmap: u32| vec![(BITMAP, u64::from(bitmap))];
    any_bitmaps().into_iter().map(damage).collect()
}

/// The values around a bound, and far from it: near the limits of 32 and of 64
/// bits, where a shortened number would look good.
pub fn around(bound: u64) -> Vec<u64> {
    let low = bound.wrapping_sub(1);
    let mut values = vec![bound, bound + 1, bound + (1 << 32), bound + (1 << 63)];
    values.extend((bound > 0).then_some(low));
    values.push(u64::MAX);
    values
}

fn marks(log: Marks, memory: &Memory, buffer: Buffer) -> Vec<Damage> {
    let buffer = memory.stores[buffer].get().len() as u64;
    let state = memory.state.get();
    let used = log.used.get(state);
    let mut all = Vec::new();
    // A used length about its buffer's; the last entry is the first byte, the
    // byte before the used length, or what it was.
    for value in around(buffer) {
        all.push(vec![(log.used, value)]);
        all.push(vec![(log.used, value), (log.has_last, 1), (log.last, 0)]);
        let before = value.saturating_sub(1);
        all.push(vec![
            (log.used, value),
            (log.has_last, 1),
            (log.last, before),
        ]);
    }
    for value in around(used).into_iter().chain([0]) {
        all.push(vec![(log.has_last, 1), (log.last, value)]);
        // An offset though there is none.
        all.push(vec![(log.has_last, 0), (log.last, value)]);
    }
    for (value, has_last, last) in [(0, 0, 0), (0, 1, 0), (1, 0, 0), (1, 1, 0), (1, 1, 1)] {
        all.push(vec![
            (log.used, value),
            (log.has_last, has_last),
            (log.last, last),
        ]);
    }
    all.extend(flag_bytes(log.closed));
    all.extend(flag_bytes(log.has_last));
    all
}

fn table(memory: &Memory) -> Vec<Damage> {
    let buffer = memory.stores[Buffer::Table].get().len() as u64;
    let mut all = Vec::new();
    let start = TABLE_START as u64;
    for value in around(buffer).into_iter().chain(around(start)).chain([0]) {
        all.push(vec![(TABLE_USED, value)]);
    }
    for value in around(HIGHEST_COUNT).into_iter().chain([0, 1]) {
        all.push(vec![(COUNT, value)]);
        all.push(vec![(COUNT, value), (ARMED, 1)]);
    }
    all.extend(flag_bytes(TABLE_CLOSED));
    all.push(vec![(TABLE_CLOSED, 1), (ARMED, 1)]);
    all.push(vec![(TABLE_CLOSED, 1), (ARMED, 0)]);
    all
}

/// SHA-1 inactive, and marks of the 1.2 log.
fn inactive() -> Vec<Damage> {
    let entry = LEN_1_2 as u64;
    let marks = [(0, 0, 0), (0, 1, 0), (1, 0, 0), (1, 1, 0), (entry, 1, 0)];
    let damage = |(used, has_last, last)| {
        vec![
            (BITMAP, u64::from(ALL & !SHA1)),
            (LOG_1_2.used, used),
            (LOG_1_2.has_last, has_last),
            (LOG_1_2.last, last),
        ]
    };
    let mut all = marks.map(damage).to_vec();
    let mut closed = damage(marks[0]);
    closed.push((LOG_1_2.closed, 1));
    all.push(closed);
    all
}

/// Each bitmap with used lengths about every header's.
fn headers() -> Vec<Damage> {
    let mut all = Vec::new();
    for bitmap in 1..=ALL {
        for used in [vec![0, 1], about_headers()].concat() {
            let mut damage = vec![(BITMAP, bitmap.into()), (AGILE.used, used as u64)];
            damage.extend([(AGILE.has_last, 1), (AGILE.last, 0)]);
            if bitmap & SHA1 == 0 {
                damage.extend([(LOG_1_2.used, 0), (LOG_1_2.has_last, 0), (LOG_1_2.last, 0)]);
            }
            all.push(damage);
        }
    }
    all
}

fn flag_bytes(flag: Field) -> Vec<Damage> {
    [0, 1, 2, 3, 128, 255]
        .map(|value| vec![(flag, value)])
        .to_vec()
}
