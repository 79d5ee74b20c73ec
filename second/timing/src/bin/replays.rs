//! Times the replay of whole logs: the proved library's, through its C calls,
//! against the model's simple one, in one interleaved run.

use model::bank::digests;
use model::entry::{agile_entry, header};
use model::limits::{LONGEST, LONGEST_EVENT, REGISTERS};
use model::octets::u64_at;
use model::replay::{self, ANSWER_BYTES, REPLAY_BYTES};
use std::hint::black_box;
use std::process::ExitCode;
use timing::{median, rounds, run, timed, BOTH};

/// A number asked that no log reaches.
const ALL: u64 = u64::MAX;

fn main() -> ExitCode {
    run("replays", 301, measure)
}

fn measure(rounds: usize) {
    println!("| log, both banks | bytes | entries | asked | proved us | simple us | ratio | proved ns an entry |");
    println!("|---|---:|---:|---:|---:|---:|---:|---:|");
    for length in [LONGEST / 4, LONGEST / 2, LONGEST] {
        print(rounds, "empty events", 0, length, ALL);
    }
    print(rounds, "empty events", 0, LONGEST, 16);
    print(rounds, "empty events", 0, LONGEST, 1);
    print(rounds, "events of 4,096 B", LONGEST_EVENT, LONGEST, ALL);
    print(rounds, "events of 4,096 B", LONGEST_EVENT, LONGEST, 1);
}

/// As many entries as fit into a log of this length, and their number.
fn log(event: usize, length: usize) -> (Vec<u8>, u64) {
    let mut log = header(BOTH);
    let mut entries: u64 = 0;
    loop {
        let register = entries as u32 % REGISTERS;
        let digests = digests(BOTH, &entries.to_le_bytes());
        let entry = agile_entry(register, 6, &digests, &vec![0x5a; event]);
        if log.len() + entry.len() > length {
            return (log, entries);
        }
        log.extend(entry);
        entries += 1;
    }
}

fn print(count: usize, what: &str, event: usize, length: usize, asked: u64) {
    let (log, entries) = log(event, length);
    let proved = || replay_proved(black_box(&log), asked, entries);
    let simple = || replay_simple(black_box(&log), asked, entries);
    assert_eq!(proved(), simple(), "the replays differ");
    // Few entries are replayed several times between two readings of the clock.
    let times = (400 / entries.max(1)).max(1);
    let [proved, simple] = rounds(
        count,
        [
            &mut || timed(times, || _ = black_box(proved())),
            &mut || timed(times, || _ = black_box(simple())),
        ],
    );
    let (proved, simple) = (median(proved), median(simple));
    let asked = match asked {
        ALL => "all".to_string(),
        _ => asked.to_string(),
    };
    println!(
        "| {what} | {} | {entries} | {asked} | {:.1} | {:.1} | {:.3} | {:.0} |",
        log.len(),
        proved / 1e3,
        simple / 1e3,
        proved / simple,
        proved / entries as f64
    );
}

/// Through the library's C calls: the replay's bytes at the end.
fn replay_proved(log: &[u8], asked: u64, entries: u64) -> Vec<u8> {
    let mut bytes = [0; REPLAY_BYTES];
    let mut answer = [0; ANSWER_BYTES];
    assert_eq!(linked::begin(&mut bytes, 2, log), 0);
    let mut taken = 0;
    while answer[ANSWER_BYTES - 1] == 0 {
        assert_eq!(linked::slice(&mut bytes, log, asked, &mut answer), 0);
        taken += u64_at(&answer, 0);
    }
    assert_eq!(taken, entries);
    bytes.to_vec()
}

/// With the model's replay, by value.
fn replay_simple(log: &[u8], asked: u64, entries: u64) -> Vec<u8> {
    let mut state = replay::begin(2, log).expect("a good header");
    let mut taken = 0;
    loop {
        let answer = replay::slice(&mut state, log, asked);
        assert!(answer.refused.is_none());
        taken += answer.taken;
        if answer.done {
            break;
        }
    }
    assert_eq!(taken, entries);
    replay::replay_bytes(&state)
}
