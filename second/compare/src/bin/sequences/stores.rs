//! Lengths of the stores, 01, "Stores and their bytes".

use crate::damage::{AGILE, BITMAP, LOG_1_2, TABLE_USED};
use crate::memory::{Buffer, Memory};
use crate::step::Step;
use model::bank::{ALL, SHA1};
use model::entry::{agile_len, header_len, LEN_1_2};
use model::random::Random;
use model::store::TABLE_START;

/// The length of an entry with an event of `event` bytes.
pub fn entry_len(buffer: Buffer, bitmap: u32, event: usize) -> usize {
    let without = match buffer {
        Buffer::Log12 => LEN_1_2,
        Buffer::Agile | Buffer::Table => agile_len(good_or(bitmap, ALL)),
    };
    without + event
}

/// The used length after opening.
pub fn first_used(buffer: Buffer, bitmap: u32) -> usize {
    match buffer {
        Buffer::Log12 => 0,
        Buffer::Agile => header_len(good_or(bitmap, SHA1)),
        Buffer::Table => TABLE_START,
    }
}

/// The bitmap, or `other` for one that no panel is opened with.
fn good_or(bitmap: u32, other: u32) -> u32 {
    if (1..=ALL).contains(&bitmap) {
        bitmap
    } else {
        other
    }
}

/// The lengths about every header's.
pub fn about_headers() -> Vec<usize> {
    let mut lengths: Vec<usize> = (1..=ALL).map(header_len).collect();
    lengths.sort();
    lengths.dedup();
    let about = |len| [len - 1, len, len + 1];
    lengths.into_iter().flat_map(about).collect()
}

/// Every bitmap, and numbers that are none: next to them, or like one where
/// bits are overlooked.
pub fn any_bitmaps() -> Vec<u32> {
    let high = 1 << 31;
    let mut all: Vec<u32> = (0..=ALL + 2).collect();
    all.extend([2 * ALL + 1, (1 << 8) + 1, (1 << 16) + ALL, high, high + ALL]);
    all
}

pub fn bitmap(memory: &Memory) -> u32 {
    BITMAP.get(memory.state.get()) as u32
}

/// The used length that the state names.
pub fn used(memory: &Memory, buffer: Buffer) -> u64 {
    let field = match buffer {
        Buffer::Log12 => LOG_1_2.used,
        Buffer::Agile => AGILE.used,
        Buffer::Table => TABLE_USED,
    };
    field.get(memory.state.get())
}

/// The used bytes of the log of a format, as far as there are so many.
pub fn written(memory: &Memory, format: u32) -> Vec<u8> {
    let buffer = match format {
        1 => Buffer::Log12,
        _ => Buffer::Agile,
    };
    let bytes = memory.stores[buffer].get();
    let used = used(memory, buffer).min(bytes.len() as u64);
    bytes[..used as usize].to_vec()
}

/// The step that gives a buffer another length, its bytes kept.
pub fn resized(memory: &Memory, buffer: Buffer, len: usize, random: &mut Random) -> Step {
    let mut bytes = memory.stores[buffer].get().to_vec();
    if bytes.len() < len {
        bytes.extend(random.octets(len - bytes.len()));
    }
    bytes.truncate(len);
    Step::Lend(buffer, bytes)
}
