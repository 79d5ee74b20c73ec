//! Times a request against the hash work that it must do: the proved library's
//! and the model's, in one interleaved run.

mod panel;

use linked::{HASHES, LIBRARY};
use model::bank::{BANKS, LONGEST_DIGEST};
use model::calls::MODEL;
use panel::Panel;
use std::hint::black_box;
use std::process::ExitCode;
use timing::{columns, rounds, run, timed, BOTH};

/// Calls between two readings of the clock: long against the reading, short
/// against other work's turns on the processor.
const BATCH: u64 = 50;

/// The data of every request.
const DATA: [u8; 64] = [0x5a; 64];

fn main() -> ExitCode {
    run("requests", 1_001, measure)
}

fn measure(rounds: usize) {
    println!("| 64 B of data, both banks | request ns | hash work ns | ratio | median of the rounds' ratios |");
    println!("|---|---:|---:|---:|---:|");
    for (table, armed) in [("", false), (", table armed", true)] {
        print(rounds, table, armed);
    }
}

/// Measures both sides and prints their lines.
fn print(count: usize, table: &str, armed: bool) {
    let mut proved = Panel::new(LIBRARY, armed);
    let mut simple = Panel::new(MODEL, armed);
    let [p, p_hashes, s, s_hashes] = rounds(
        count,
        [
            &mut || requests(&mut proved),
            &mut || timed(BATCH, proved_hashes),
            &mut || requests(&mut simple),
            &mut || timed(BATCH, simple_hashes),
        ],
    );
    assert_eq!(proved.state, simple.state);
    println!("| proved{table} | {} |", columns(p, p_hashes));
    println!("| simple{table} | {} |", columns(s, s_hashes));
}

/// The opening of a panel that has no room is not timed.
fn requests(panel: &mut Panel) -> f64 {
    panel.make_room(BATCH);
    let mut answers = 0;
    let nanoseconds = timed(BATCH, || answers |= panel.request(&DATA));
    assert_eq!(answers, 0, "request");
    nanoseconds
}

/// For each bank a digest of the data and an extend, through the library's own
/// calls.
fn proved_hashes() {
    hashes(|bank, value| {
        let mut digest = [0; LONGEST_DIGEST];
        let digest = &mut digest[..value.len()];
        (HASHES[bank].digest)(black_box(&DATA), digest);
        (HASHES[bank].extend)(value, digest);
    });
}

/// The same with the model's functions.
fn simple_hashes() {
    hashes(|bank, value| {
        let mut digest = [0; LONGEST_DIGEST];
        let digest = &mut digest[..value.len()];
        (BANKS[bank].hash)(black_box(&DATA), digest);
        BANKS[bank].extend(value, digest);
    });
}

/// Extends a register of each bank.
fn hashes(extend: impl Fn(usize, &mut [u8])) {
    for (place, bank) in BANKS.iter().enumerate() {
        if BOTH & bank.bit != 0 {
            let mut value = black_box([0; LONGEST_DIGEST]);
            extend(place, &mut value[..bank.digest_len]);
            black_box(value);
        }
    }
}
