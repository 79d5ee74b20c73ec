//! The sequences of beginnings and slices that are made in every run: over
//! logs that requests wrote, damaged logs and replays, and other lengths.

use crate::boundary::{good, opened};
use crate::damage::{self, damaged, field, replay_damages, turned_bit, Damage, FORMAT, PLACE};
use crate::run::{Run, Sequence};
use crate::step::Step;
use crate::stores::written;
use model::bank::{active, ALL, SHA1};
use model::entry::{agile_len, header_len, listed_len, DIGESTS_AGILE, DIGEST_1_2, LEN_1_2};
use model::limits::{LONGEST, LONGEST_EVENT, REGISTERS};
use model::random::Random;
use model::replay::{ANSWER_BYTES, REGISTERS_AT, REPLAY_BYTES};
use model::sha1;

/// A replay's format, and the bitmap of the panel that writes its log.
type Kind = (u32, u32);

/// Both formats; of the agile one, every bitmap.
fn kinds() -> impl Iterator<Item = Kind> {
    let agile = (1..=ALL).map(|bitmap| (2, bitmap));
    [(1, SHA1), (1, ALL)].into_iter().chain(agile)
}

/// A number asked that no log reaches.
const MANY: u64 = u64::MAX;

pub fn replays(run: &mut Run) {
    whole_logs(run);
    for kind in kinds() {
        cut_logs(run, kind);
        damaged_logs(run, kind);
        turned_bits(run, kind);
        bytes_behind(run, kind);
        long_logs(run, kind);
        other_lengths(run, kind);
        damaged_replays(run, kind);
        other_logs(run, kind);
    }
}

/// A sequence whose panel has made entries; the log is lent to replays.
fn wrote<'a>(run: &'a mut Run, what: &str, kind: Kind, entries: usize) -> (Sequence<'a>, Random) {
    let (format, bitmap) = kind;
    let (mut sequence, mut random) = opened(run, what, bitmap, [3_000; 3]);
    for _ in 0..entries {
        sequence.make(good(&mut random).step());
    }
    let log = written(sequence.memory(), format);
    sequence.make(Step::Log(log, format!("the log of format {format}")));
    (sequence, random)
}

fn log_of(run: &mut Run, kind: Kind, entries: usize) -> Vec<u8> {
    let (sequence, _) = wrote(run, "log", kind, entries);
    sequence.memory().log.get().to_vec()
}

/// A replay that was begun and has taken so many entries of the log.
fn replay_of(run: &mut Run, log: &[u8], format: u32, taken: u64) -> Vec<u8> {
    let mut sequence = begun(run, "replay", log, "as written", format);
    sequence.make(slice(taken));
    sequence.memory().replay.get().to_vec()
}

/// A sequence that lends the log and begins.
fn begun<'a>(run: &'a mut Run, what: &str, log: &[u8], words: &str, format: u32) -> Sequence<'a> {
    let number = run.sequences;
    let mut sequence = Sequence::new(run, format!("replay {number}, {what}"));
    sequence.make(Step::Log(log.to_vec(), words.to_string()));
    sequence.make(Step::Begin { format });
    sequence
}

fn slice(asked: u64) -> Step {
    slice_into(asked, ANSWER_BYTES)
}

fn slice_into(asked: u64, len: usize) -> Step {
    Step::Slice {
        asked,
        answer: vec![0x5a; len],
    }
}

/// Slices of every number asked, to the end and once more; then the log has
/// grown.
fn whole_logs(run: &mut Run) {
    for kind in kinds() {
        for entries in 0..=5 {
            for asked in [0, 1, 2, 3, entries, 1 << 32, 1 << 63, MANY] {
                let (mut sequence, mut random) = wrote(run, "whole log", kind, entries as usize);
                sequence.make(Step::Begin { format: kind.0 });
                for _ in 0..entries + 2 {
                    sequence.make(slice(asked));
                }
                sequence.make(slice(0));
                sequence.make(good(&mut random).step());
                let log = written(sequence.memory(), kind.0);
                sequence.make(Step::Log(log, "with one entry more".to_string()));
                sequence.make(slice(asked));
                sequence.make(slice(1));
            }
        }
    }
}

/// The log cut at every length, before the beginning and after it.
fn cut_logs(run: &mut Run, kind: Kind) {
    let log = log_of(run, kind, 2);
    for len in 0..log.len() {
        let mut sequence = begun(run, "cut log", &log[..len], "cut", kind.0);
        for asked in [1, MANY, 1] {
            sequence.make(slice(asked));
        }
        let mut sequence = begun(run, "cut later", &log, "as written", kind.0);
        sequence.make(slice(1));
        sequence.make(Step::Log(log[..len].to_vec(), "cut".to_string()));
        for asked in [0, 1, MANY] {
            sequence.make(slice(asked));
        }
    }
}

/// Where the entries of a log start.
fn starts(kind: Kind, log: &[u8]) -> Vec<usize> {
    let (mut place, len) = match kind {
        (1, _) => (0, LEN_1_2),
        (_, bitmap) => (header_len(bitmap), agile_len(bitmap)),
    };
    let mut starts = Vec::new();
    while place < log.len() {
        starts.push(place);
        let event = field("event length", place + len - 4, 4).get(log) as usize;
        place += len + event;
    }
    starts
}

/// Where in an entry its algorithm numbers, its digests' first and last bytes,
/// and its event's length lie.
fn entry_places(kind: Kind) -> (Vec<usize>, Vec<usize>, usize) {
    let (format, bitmap) = kind;
    if format == 1 {
        let end = DIGEST_1_2 + sha1::DIGEST;
        return (vec![], vec![DIGEST_1_2, end - 1], end);
    }
    let (mut algorithms, mut digests, mut place) = (vec![], vec![], DIGESTS_AGILE);
    for bank in active(bitmap) {
        let end = place + listed_len(bank);
        algorithms.push(place);
        digests.extend([end - bank.digest_len, end - 1]);
        place = end;
    }
    (algorithms, digests, place)
}

/// What each field of the entry at a place is changed to.
fn field_damages(kind: Kind, at: usize, left: u64) -> Vec<Damage> {
    let high = 1 << 31;
    let mut all: Vec<Damage> = Vec::new();
    let register = field("register", at, 4);
    let none = u64::from(REGISTERS);
    let mut numbers = vec![0, 16, 17, 22, none - 1, none, none + 1];
    numbers.extend([31, 255, 256, 1 << 16, high, high + 1]);
    all.extend(numbers.iter().map(|&value| vec![(register, value)]));
    let kinds = [0, 3, 0xffff_ffff];
    all.extend(kinds.map(|value| vec![(field("type", at + 4, 4), value)]));
    let (algorithms, digests, event) = entry_places(kind);
    if kind.0 == 2 {
        let count = field("count", at + 8, 4);
        let counts = [0, 1, 2, 3, 4, 0x101, 0x1_0002, high + 2, 0xffff_ffff];
        all.extend(counts.map(|value| vec![(count, value)]));
    }
    for place in algorithms {
        let algorithm = field("algorithm", at + place, 2);
        let numbers = [0, 4, 5, 0x0b, 0x0c, 0x0d, 0x104, 0x0b00, 0xffff];
        all.extend(numbers.map(|value| vec![(algorithm, value)]));
    }
    for place in digests {
        all.push(vec![(field("digest byte", at + place, 1), 0xa7)]);
    }
    let event = field("event length", at + event, 4);
    let longest = LONGEST_EVENT as u64;
    let mut lengths = vec![0, 1, longest - 1, longest, longest + 1];
    lengths.extend([1 << 16, high, 0xffff_ffff]);
    lengths.extend((left.saturating_sub(3)..left + 3).chain([left + (1 << 16)]));
    all.extend(lengths.iter().map(|&value| vec![(event, value)]));
    // The order of the refusals: each with an event that is too long.
    all.push(vec![(register, none), (event, longest + 1)]);
    if kind.0 == 2 {
        let count = field("count", at + 8, 4);
        all.push(vec![(register, none), (count, 9)]);
        all.push(vec![(count, 9), (event, longest + 1)]);
    }
    all
}

/// Every field of each entry, and cut right after what is damaged.
fn damaged_logs(run: &mut Run, kind: Kind) {
    let log = log_of(run, kind, 3);
    for at in starts(kind, &log) {
        let left = (log.len() - at) as u64;
        for damage in field_damages(kind, at, left) {
            let (bad, words) = damaged(&log, &damage);
            let mut sequence = begun(run, "damaged log", &bad, &words, kind.0);
            for asked in [0, 1, 1, MANY, 0, 1] {
                sequence.make(slice(asked));
            }
            for len in [12, 32, 36, 40, 54, 72] {
                let cut = &bad[..bad.len().min(at + len)];
                let mut sequence = begun(run, "damaged and cut", cut, &words, kind.0);
                sequence.make(slice(MANY));
            }
            // Damaged after the beginning.
            let mut sequence = begun(run, "damaged later", &log, "as written", kind.0);
            sequence.make(slice(1));
            sequence.make(Step::Log(bad, words));
            sequence.make(slice(MANY));
        }
    }
}

/// Each bit of the log turned, those of the header too.
fn turned_bits(run: &mut Run, kind: Kind) {
    let log = log_of(run, kind, 2);
    for bit in 0..8 * log.len() {
        let (bad, words) = turned_bit(&log, bit);
        let mut sequence = begun(run, "turned bit", &bad, &words, kind.0);
        for asked in [1, MANY] {
            sequence.make(slice(asked));
        }
    }
}

/// Bytes behind the last entry.
fn bytes_behind(run: &mut Run, kind: Kind) {
    let log = log_of(run, kind, 1);
    let mut random = Random::new(run.sequences);
    for more in 1..=80 {
        for zeros in [false, true] {
            let behind = if zeros {
                vec![0; more]
            } else {
                random.octets(more)
            };
            let log = [&log[..], &behind].concat();
            let mut sequence = begun(run, "bytes behind", &log, "bytes behind it", kind.0);
            sequence.make(slice(MANY));
            sequence.make(slice(1));
        }
    }
}

/// 01, "log over 65,536 bytes"; 38 before 36 before 37, and 36 before 35.
fn long_logs(run: &mut Run, kind: Kind) {
    let log = log_of(run, kind, 3);
    for len in [LONGEST - 1, LONGEST, LONGEST + 1, 70_000] {
        let mut long = log.clone();
        long.resize(len, 0);
        for format in [0, 1, 2, 3, 0x102, 1 << 31] {
            let mut sequence = begun(run, "long log", &long, "zeros behind it", format);
            sequence.make(slice(2));
            sequence.make(slice(MANY));
        }
        let mut sequence = begun(run, "long later", &log, "as written", kind.0);
        sequence.make(Step::Log(long, "zeros behind it".to_string()));
        let replay = sequence.memory().replay.get().to_vec();
        for damage in [vec![], vec![(FORMAT, 3)], vec![(PLACE, 1 << 32)]] {
            for asked in [0, 1, 5] {
                sequence.make(damage::replay_step(&replay, &damage));
                sequence.make(slice(asked));
            }
        }
    }
}

/// Replays and answer records of other lengths, which are a 35 before all else.
fn other_lengths(run: &mut Run, kind: Kind) {
    let log = log_of(run, kind, 2);
    let replay = replay_of(run, &log, kind.0, 1);
    let mut long = log.clone();
    long.resize(LONGEST + 1, 0);
    let (edge, record) = (REPLAY_BYTES, ANSWER_BYTES);
    for len in [0, 1, REGISTERS_AT, edge - 1, edge, edge + 1, 2 * edge] {
        let mut other = replay.clone();
        other.resize(len, 0);
        for log in [&log, &long] {
            for answer in [0, 1, record - 1, record, record + 1, 2 * record] {
                let mut sequence = begun(run, "lengths", log, "any", kind.0);
                sequence.make(Step::Replay(other.clone(), "resized".to_string()));
                for asked in [0, 1, MANY] {
                    sequence.make(slice_into(asked, answer));
                }
            }
            for format in 0..=3 {
                let mut sequence = begun(run, "lengths", log, "any", format);
                sequence.make(Step::Replay(other.clone(), "resized".to_string()));
                sequence.make(Step::Begin { format });
                sequence.make(slice(1));
            }
        }
    }
}

/// 01, "place beyond the log, or format and banks that no beginning gives";
/// places that are no entry's; any registers.
fn damaged_replays(run: &mut Run, kind: Kind) {
    let log = log_of(run, kind, 3);
    let replay = replay_of(run, &log, kind.0, 1);
    let mut all = replay_damages(log.len() as u64);
    all.extend((0..=log.len() as u64).map(|place| vec![(PLACE, place)]));
    for damage in all {
        damaged_replay(run, &log, damage::replay_step(&replay, &damage));
    }
    let mut random = Random::new(run.sequences);
    for bit in 0..8 * REGISTERS_AT {
        let (bad, words) = turned_bit(&replay, bit);
        damaged_replay(run, &log, Step::Replay(bad, words));
    }
    for _ in 0..20 {
        let mut other = replay[..REGISTERS_AT].to_vec();
        other.extend(random.octets(REPLAY_BYTES - REGISTERS_AT));
        damaged_replay(run, &log, Step::Replay(other, "any registers".to_string()));
    }
}

fn damaged_replay(run: &mut Run, log: &[u8], step: Step) {
    let number = run.sequences;
    let mut sequence = Sequence::new(run, format!("replay {number}, damaged replay"));
    sequence.make(Step::Log(log.to_vec(), "as written".to_string()));
    sequence.make(step);
    let replay = sequence.memory().replay.get().to_vec();
    for asked in [0, 1, 2, MANY] {
        sequence.make(slice(asked));
        let words = "as before the slice".to_string();
        sequence.make(Step::Replay(replay.clone(), words));
    }
}

/// A replay of one log goes on with another; beginnings of every format.
fn other_logs(run: &mut Run, kind: Kind) {
    let log = log_of(run, kind, 3);
    for other in kinds() {
        let another = log_of(run, other, 4);
        for taken in 0..=3 {
            let mut sequence = begun(run, "other log", &log, "as written", kind.0);
            sequence.make(slice(taken));
            sequence.make(Step::Log(another.clone(), "another".to_string()));
            sequence.make(slice(1));
            sequence.make(slice(MANY));
        }
        for format in [0, 1, 2, 3, 0x101, 0x102, (1 << 31) + 1, u32::MAX] {
            let mut sequence = begun(run, "other format", &another, "as written", format);
            sequence.make(slice(1));
            sequence.make(slice(MANY));
        }
    }
}
