//! What the programs that print lists share.

use std::io::{self, BufWriter, StdoutLock, Write};

/// The byte that a buffer is full of before.
pub const UNWRITTEN: u8 = 165;

pub type Out = BufWriter<StdoutLock<'static>>;

/// Prints a list to standard output.
pub fn print(list: impl FnOnce(&mut Out) -> io::Result<()>) -> io::Result<()> {
    let mut out = BufWriter::new(io::stdout().lock());
    list(&mut out)?;
    out.flush()
}
