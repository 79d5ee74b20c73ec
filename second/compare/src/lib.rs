//! What the programs that compare the proved library with the model share.

pub mod lent;

use std::process::ExitCode;

/// The comparisons of a run that agreed, and those that didn't.
#[derive(Default)]
pub struct Counts {
    pub passed: u64,
    pub failed: u64,
}

/// Runs a comparison with the command line's number of random cases and seed,
/// and ends with `N passed, M failed`.
pub fn run(name: &str, count: u64, compare: impl FnOnce(u64, u64) -> Counts) -> ExitCode {
    let Some([count, seed]) = arguments([count, 1]) else {
        eprintln!("usage: {name} [N [SEED]]");
        return ExitCode::from(2);
    };
    let Counts { passed, failed } = compare(count, seed);
    println!("{passed} passed, {failed} failed");
    ExitCode::from(u8::from(failed > 0))
}

/// The numbers of the command line, for which these stand where it has fewer.
fn arguments(mut numbers: [u64; 2]) -> Option<[u64; 2]> {
    let mut places = numbers.iter_mut();
    for arg in std::env::args().skip(1) {
        *places.next()? = arg.parse().ok()?;
    }
    Some(numbers)
}
