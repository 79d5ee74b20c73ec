//! Compares opening, requests, readings, beginnings and slices of the proved
//! library, linked as C, with the model, call by call: boundary sequences, then
//! random ones.

mod asked;
mod boundary;
mod damage;
mod generate;
mod memory;
mod replays;
mod run;
mod step;
mod stores;

use boundary::boundaries;
use compare::{run, Counts};
use generate::Generator;
use replays::replays;
use run::Run;
use std::process::ExitCode;

fn main() -> ExitCode {
    run("sequences", 150_000, compare)
}

fn compare(count: u64, seed: u64) -> Counts {
    let mut run = Run::new();
    boundaries(&mut run);
    replays(&mut run);
    println!("{} boundary sequences", run.sequences);
    println!("{count} random sequences, seed {seed}");
    let mut generator = Generator::new();
    for number in 0..count {
        generator.sequence(&mut run, seed, number);
    }
    run.print_seen();
    run.counts
}
