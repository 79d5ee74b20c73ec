//! The limits of document 01.

/// A bank has registers 0 to 23.
pub const REGISTERS: u32 = 24;

/// The longest buffer of a store, the longest data of a request, and the
/// longest log that is replayed.
pub const LONGEST: usize = 65_536;

/// The longest event, in a request and in a log.
pub const LONGEST_EVENT: usize = 4_096;

/// The highest count of the table in a state that belongs.
pub const HIGHEST_COUNT: u64 = 2_048;
