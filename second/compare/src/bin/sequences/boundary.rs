//! The sequences that are made in every run: each bound just inside and just
//! outside.

use crate::asked::{variations, Asked};
use crate::damage::{self, damages, turned_bit, BITMAP};
use crate::memory::{Buffer, BUFFERS};
use crate::run::{Run, Sequence};
use crate::step::Step;
use crate::stores::{about_headers, any_bitmaps, entry_len, first_used, resized, used};
use model::bank::ALL;
use model::entry::header_len;
use model::limits::{LONGEST, REGISTERS};
use model::random::Random;
use model::service::{at, EXTEND_ONLY, MARKS_BYTES, PE_COFF, STATE_BYTES};
use model::store::TABLE_START;

/// Lengths that are no state's.
pub const STATE_LENGTHS: [usize; 6] = [
    0,
    1,
    at::REGISTERS,
    STATE_BYTES - 1,
    STATE_BYTES + 1,
    2 * STATE_BYTES,
];

const ROOMY: [usize; 3] = [600, 800, 900];

pub fn boundaries(run: &mut Run) {
    openings(run);
    long_buffers(run);
    state_lengths(run);
    requests(run);
    fits(run);
    full_stores(run);
    readings(run);
    damaged_states(run);
    other_bytes(run);
    other_buffers(run);
}

fn begin<'a>(run: &'a mut Run, what: &str) -> (Sequence<'a>, Random) {
    let number = run.sequences;
    let sequence = Sequence::new(run, format!("boundary {number}, {what}"));
    (sequence, Random::new(number))
}

/// A sequence that lends buffers of these lengths and opens.
pub fn opened<'a>(
    run: &'a mut Run,
    what: &str,
    bitmap: u32,
    lengths: [usize; 3],
) -> (Sequence<'a>, Random) {
    let (mut sequence, mut random) = begin(run, what);
    for (buffer, len) in BUFFERS.into_iter().zip(lengths) {
        sequence.make(Step::Lend(buffer, random.octets(len)));
    }
    sequence.make(Step::Open { bitmap });
    (sequence, random)
}

pub fn good(random: &mut Random) -> Asked {
    let event = random.below(12);
    let data = 1 + random.below(70);
    Asked::good(random, event, data)
}

fn read(format: u32) -> Step {
    read_into(format, MARKS_BYTES)
}

fn read_into(format: u32, len: usize) -> Step {
    Step::Read {
        format,
        answer: vec![0x5a; len],
    }
}

fn openings(run: &mut Run) {
    let agiles = [vec![0, 1], about_headers(), vec![300]].concat();
    for bitmap in any_bitmaps().into_iter().chain([u32::MAX]) {
        for &agile in &agiles {
            for table in [0, 8, TABLE_START - 1, TABLE_START, TABLE_START + 1, 300] {
                for log_1_2 in [0, 300] {
                    let lengths = [log_1_2, agile, table];
                    let (mut sequence, mut random) = opened(run, "opening", bitmap, lengths);
                    sequence.make(good(&mut random).step());
                    sequence.make(read(1));
                    sequence.make(read(2));
                    sequence.make(good(&mut random).step());
                }
            }
        }
    }
}

/// 01, "a buffer over 65,536 bytes"; 2 before 5.
fn long_buffers(run: &mut Run) {
    for bitmap in 0..=ALL + 1 {
        for long in 0..3 {
            for len in [LONGEST, LONGEST + 1] {
                for others in [TABLE_START - 1, 100] {
                    let mut lengths = [others; 3];
                    lengths[long] = len;
                    let (mut sequence, mut random) = opened(run, "long buffer", bitmap, lengths);
                    sequence.make(good(&mut random).step());
                    sequence.make(read(2));
                    sequence.make(good(&mut random).step());
                }
            }
        }
    }
}

/// Opening into a state's buffer of another length, or of any bytes.
fn state_lengths(run: &mut Run) {
    let header = header_len(ALL);
    for bitmap in [ALL, ALL + 1] {
        for len in [0, 1, STATE_BYTES - 1, STATE_BYTES, STATE_BYTES + 1] {
            for agile in [header - 1, header, 300] {
                let lengths = [300, agile, 300];
                let (mut sequence, mut random) = opened(run, "state", bitmap, lengths);
                sequence.make(Step::State(random.octets(len), "any bytes".to_string()));
                sequence.make(Step::Open { bitmap });
                sequence.make(read(2));
                sequence.make(good(&mut random).step());
            }
        }
    }
}

/// Every variation of a request, alone, with the PE/COFF flag and extend-only;
/// then with a state that doesn't belong.
fn requests(run: &mut Run) {
    for bitmap in 1..=ALL {
        for variation in variations() {
            let lengths = [10_000, 10_000, 10_000];
            let (mut sequence, mut random) = opened(run, "request", bitmap, lengths);
            sequence.make(good(&mut random).step());
            for flags in [0, EXTEND_ONLY, PE_COFF, EXTEND_ONLY | PE_COFF] {
                let mut asked = good(&mut random).with(flags);
                variation.vary(&mut asked, &mut random);
                sequence.make(asked.step());
            }
            sequence.make(read(2));
            sequence.make(good(&mut random).step());
            let state = sequence.memory().state.get();
            sequence.make(damage::step(state, &vec![(BITMAP, u64::from(ALL + 1))]));
            let mut asked = good(&mut random);
            variation.vary(&mut asked, &mut random);
            sequence.make(asked.step());
        }
    }
}

/// Entries that just fit, are one short, or leave one byte over.
fn fits(run: &mut Run) {
    for bitmap in 1..=ALL {
        for tight in BUFFERS {
            for before in 0..3 {
                for (short, over) in [(1, 0), (0, 0), (0, 1)] {
                    for format in [1, 2, 3] {
                        fit(run, bitmap, tight, before, format, over, short);
                    }
                }
            }
        }
    }
}

/// `before` entries, then one for which `tight` has `over` bytes too many or
/// `short` too few. A reading of `format` arms the table, or is refused.
fn fit(
    run: &mut Run,
    bitmap: u32,
    tight: Buffer,
    before: usize,
    format: u32,
    over: usize,
    short: usize,
) {
    let event = 7;
    let entries = (before + 1) * entry_len(tight, bitmap, event);
    let len = first_used(tight, bitmap) + entries + over - short;
    let lengths = BUFFERS.map(|buffer| if buffer == tight { len } else { 2_000 });
    let (mut sequence, mut random) = opened(run, "fit", bitmap, lengths);
    sequence.make(read(format));
    for _ in 0..=before {
        sequence.make(Asked::good(&mut random, event, 5).step());
    }
    sequence.make(read(1));
    sequence.make(read(2));
    // Extend-only after it, and entries that are smaller.
    for (flags, event) in [(EXTEND_ONLY, 7), (0, 0), (EXTEND_ONLY, 0), (0, 7)] {
        let asked = Asked::good(&mut random, event, 5).with(flags);
        sequence.make(asked.step());
    }
    sequence.make(read(1));
    sequence.make(read(2));
    sequence.make(Step::Open { bitmap });
    sequence.make(Asked::good(&mut random, 0, 5).with(EXTEND_ONLY).step());
}

/// Buffers of the most bytes there may be, used almost to their ends.
fn full_stores(run: &mut Run) {
    for bitmap in 1..=ALL {
        for full in BUFFERS {
            let (event, end) = (7, LONGEST as u64);
            let entry = entry_len(full, bitmap, event) as u64;
            for used in [end - entry - 1, end - entry, end - entry + 1, end, end + 1] {
                let lengths = [LONGEST; 3];
                let (mut sequence, mut random) = opened(run, "full store", bitmap, lengths);
                sequence.make(read(2));
                let state = sequence.memory().state.get();
                let step = damage::step(state, &damage::used(full, used));
                sequence.make(step);
                for event in [event, 0] {
                    sequence.make(Asked::good(&mut random, event, 5).step());
                    sequence.make(read(1));
                    sequence.make(read(2));
                }
            }
        }
    }
}

/// Every format and record length, before and after entries.
fn readings(run: &mut Run) {
    let edge = MARKS_BYTES;
    for bitmap in 1..=ALL {
        for format in [0, 1, 2, 3, 4, 0x101, 0x102, 0x8000_0001, 0x8000_0002] {
            for len in [0, 1, edge - 1, edge, edge + 1, 2 * edge] {
                let (mut sequence, mut random) = opened(run, "reading", bitmap, ROOMY);
                sequence.make(read_into(format, len));
                sequence.make(good(&mut random).step());
                sequence.make(read_into(format, len));
                sequence.make(good(&mut random).step());
                sequence.make(read_into(format, len));
            }
        }
    }
}

/// A panel that has only been opened, or one whose table has an entry.
fn base(run: &mut Run, bitmap: u32, entries: bool) -> (Sequence<'_>, Random) {
    let (mut sequence, mut random) = opened(run, "damage", bitmap, ROOMY);
    if entries {
        sequence.make(good(&mut random).step());
        sequence.make(read(2));
        sequence.make(good(&mut random).step());
    }
    (sequence, random)
}

/// Each call, bad ones too: the step comes before every one of them.
fn every_call(sequence: &mut Sequence, random: &mut Random, before: &dyn Fn() -> Step) {
    let asked = [0, EXTEND_ONLY, PE_COFF, 0x20].map(|flags| good(random).with(flags));
    let mut wrong = good(random).with(PE_COFF);
    wrong.head.register = REGISTERS;
    let requests = asked.into_iter().chain([wrong]).map(Asked::step);
    let readings = [
        read(1),
        read(2),
        read(3),
        read_into(2, MARKS_BYTES - 1),
        read_into(3, MARKS_BYTES - 1),
    ];
    for call in requests.chain(readings) {
        sequence.make(before());
        sequence.make(call);
    }
    // And on with what the last step left.
    sequence.make(good(random).step());
    sequence.make(read(2));
    sequence.make(good(random).step());
}

fn damaged_states(run: &mut Run) {
    for bitmap in 1..=ALL {
        for entries in [false, true] {
            let all = damages(base(run, bitmap, entries).0.memory());
            for damage in all {
                let (mut sequence, mut random) = base(run, bitmap, entries);
                let state = sequence.memory().state.get().to_vec();
                let before = || damage::step(&state, &damage);
                every_call(&mut sequence, &mut random, &before);
            }
        }
    }
}

/// States of another length, and with each bit of the marks turned.
fn other_bytes(run: &mut Run) {
    for bitmap in 1..=ALL {
        for len in STATE_LENGTHS {
            let (mut sequence, mut random) = base(run, bitmap, true);
            let mut state = sequence.memory().state.get().to_vec();
            state.resize(len, 0);
            let before = || Step::State(state.clone(), "cut, or with zeros after".to_string());
            every_call(&mut sequence, &mut random, &before);
        }
        for bit in 0..8 * at::REGISTERS {
            let (mut sequence, mut random) = base(run, bitmap, true);
            let (state, words) = turned_bit(sequence.memory().state.get(), bit);
            let before = || Step::State(state.clone(), words.clone());
            every_call(&mut sequence, &mut random, &before);
        }
    }
}

/// Buffers of other lengths than the opening's.
fn other_buffers(run: &mut Run) {
    for bitmap in 1..=ALL {
        for buffer in BUFFERS {
            for len in 0..5 {
                let (mut sequence, mut random) = base(run, bitmap, true);
                let used = used(sequence.memory(), buffer) as usize;
                let lengths = [used.max(1) - 1, used, used + 1, LONGEST, LONGEST + 1];
                let step = resized(sequence.memory(), buffer, lengths[len], &mut random);
                sequence.make(step);
                let state = sequence.memory().state.get().to_vec();
                let before = || Step::State(state.clone(), "as it was".to_string());
                every_call(&mut sequence, &mut random, &before);
            }
        }
    }
}
