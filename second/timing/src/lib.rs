//! What the programs that measure share.

use model::bank::{SHA1, SHA256};
use std::process::ExitCode;
use std::time::Instant;

/// The banks of requests and of replayed logs.
pub const BOTH: u32 = SHA1 | SHA256;

/// Measures with the command line's number of rounds, for which `rounds` stands
/// where it names none.
pub fn run(name: &str, rounds: usize, measure: impl FnOnce(usize)) -> ExitCode {
    let Some(rounds) = argument(rounds) else {
        eprintln!("usage: {name} [ROUNDS]");
        return ExitCode::from(2);
    };
    measure(rounds);
    ExitCode::SUCCESS
}

fn argument(rounds: usize) -> Option<usize> {
    let mut args = std::env::args().skip(1);
    let rounds = match args.next() {
        Some(arg) => arg.parse().ok()?,
        None => rounds,
    };
    (rounds > 0 && args.next().is_none()).then_some(rounds)
}

/// The nanoseconds of one of so many calls.
pub fn timed(calls: u64, mut call: impl FnMut()) -> f64 {
    let start = Instant::now();
    for _ in 0..calls {
        call();
    }
    start.elapsed().as_nanos() as f64 / calls as f64
}

/// What each of the measures gives in each of the rounds. The order turns about
/// in every other round, so that none gains by its place.
pub fn rounds<const N: usize>(
    rounds: usize,
    measures: [&mut dyn FnMut() -> f64; N],
) -> [Vec<f64>; N] {
    let mut times = [(); N].map(|_| Vec::with_capacity(rounds));
    for round in 0..rounds {
        for place in 0..N {
            let turn = if round % 2 == 0 { place } else { N - 1 - place };
            times[turn].push(measures[turn]());
        }
    }
    times
}

/// The columns of two lists of times: the medians, their ratio, and the median
/// of the rounds' ratios.
pub fn columns(times: Vec<f64>, others: Vec<f64>) -> String {
    let ratios = times.iter().zip(&others).map(|(a, b)| a / b).collect();
    let (time, other) = (median(times), median(others));
    let ratio = time / other;
    format!(
        "{time:.1} | {other:.1} | {ratio:.3} | {:.3}",
        median(ratios)
    )
}

pub fn median(mut values: Vec<f64>) -> f64 {
    values.sort_by(f64::total_cmp);
    values[values.len() / 2]
}
