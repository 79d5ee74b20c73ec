//! Times the proved digests and extends against the model's, in one interleaved
//! run.

use model::bank::{Bank, BANKS, LONGEST_DIGEST};
use std::hint::black_box;
use std::process::ExitCode;
use std::time::Duration;
use timing::{columns, rounds, run, timed};

const SIZES: [(&str, usize); 4] = [
    ("4 B", 4),
    ("64 B", 64),
    ("1 KiB", 1 << 10),
    ("64 KiB", 64 << 10),
];

/// A batch takes from this long to twice it, or is a single call: long
/// against the reading of the clock, short against other work's turns on the
/// processor.
const BATCH: Duration = Duration::from_micros(50);

fn main() -> ExitCode {
    run("hashes", 301, measure)
}

fn measure(rounds: usize) {
    println!("| what | size | proved ns | simple ns | ratio | median of the rounds' ratios |");
    println!("|---|---:|---:|---:|---:|---:|");
    let hashes = || BANKS.iter().zip(&linked::HASHES);
    for (bank, library) in hashes() {
        for (size, len) in SIZES {
            let message: Vec<u8> = (0..len).map(|i| (i * 7 + 3) as u8).collect();
            let row = Row::new(bank, "", size, 0, rounds);
            row.print(
                |digest| _ = (library.digest)(black_box(&message), digest),
                |digest| (bank.hash)(black_box(&message), digest),
            );
        }
    }
    for (bank, library) in hashes() {
        let digest = vec![0x22; bank.digest_len];
        let size = format!("{} B", bank.digest_len);
        let row = Row::new(bank, " extend", &size, 0x11, rounds);
        row.print(
            |register| _ = (library.extend)(register, black_box(&digest)),
            |register| bank.extend(register, black_box(&digest)),
        );
    }
}

/// A line of the table.
struct Row {
    name: String,
    rounds: usize,
    /// The length of a digest, and the byte that its buffer is full of before.
    len: usize,
    byte: u8,
}

impl Row {
    fn new(bank: &Bank, what: &str, size: &str, byte: u8, rounds: usize) -> Row {
        let number = bank.name.trim_start_matches("sha");
        Row {
            name: format!("SHA-{number}{what} | {size}"),
            rounds,
            len: bank.digest_len,
            byte,
        }
    }

    /// Measures both calls, which must leave the same, and prints the line. The
    /// library's status isn't looked at: a call that refuses changes nothing.
    fn print(&self, proved: impl Fn(&mut [u8]), simple: impl Fn(&mut [u8])) {
        let proved = || self.left(&proved);
        let simple = || self.left(&simple);
        assert_eq!(proved(), simple(), "{}", self.name);
        let (proved_calls, simple_calls) = (calls_of_batch(&proved), calls_of_batch(&simple));
        let [p, s] = rounds(
            self.rounds,
            [&mut || batch(proved_calls, &proved), &mut || {
                batch(simple_calls, &simple)
            }],
        );
        println!("| {} | {} |", self.name, columns(p, s));
    }

    /// What a call leaves in its buffer.
    fn left(&self, call: impl Fn(&mut [u8])) -> [u8; LONGEST_DIGEST] {
        let mut buffer = black_box([self.byte; LONGEST_DIGEST]);
        call(&mut buffer[..self.len]);
        black_box(buffer)
    }
}

fn batch<T>(calls: u64, call: &impl Fn() -> T) -> f64 {
    timed(calls, || _ = black_box(call()))
}

/// The least power of two of calls that takes the time of a batch. The
/// shortest of five trials counts, for any trial may be interrupted.
fn calls_of_batch<T>(call: &impl Fn() -> T) -> u64 {
    let mut calls = 1;
    loop {
        let shortest = (0..5)
            .map(|_| batch(calls, call))
            .fold(f64::INFINITY, f64::min);
        if shortest * calls as f64 >= BATCH.as_nanos() as f64 {
            return calls;
        }
        calls *= 2;
    }
}
