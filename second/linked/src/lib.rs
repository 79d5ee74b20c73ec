//! The C calls of the proved library, each behind a safe function.

use model::bank::BANKS;
use model::calls::Calls;
use model::service::Buffers;

/// The calls of a bank's hash.
pub struct Hash {
    pub digest: fn(&[u8], &mut [u8]) -> u64,
    pub extend: fn(&mut [u8], &[u8]) -> u64,
}

/// The hashes of the banks, in the table's order.
pub static HASHES: [Hash; BANKS.len()] = [
    Hash {
        digest: sha1,
        extend: sha1_extend,
    },
    Hash {
        digest: sha256,
        extend: sha256_extend,
    },
];

/// The calls over states and replays.
pub const LIBRARY: Calls = Calls {
    open,
    request,
    read_log,
    begin,
    slice,
};

extern "C" {
    fn sevgharin_version() -> u64;

    fn sevgharin_sha1(data: *const u8, data_len: usize, digest: *mut u8, digest_len: usize) -> u64;

    fn sevgharin_sha256(
        data: *const u8,
        data_len: usize,
        digest: *mut u8,
        digest_len: usize,
    ) -> u64;

    fn sevgharin_sha1_extend(
        register: *mut u8,
        register_len: usize,
        digest: *const u8,
        digest_len: usize,
    ) -> u64;

    fn sevgharin_sha256_extend(
        register: *mut u8,
        register_len: usize,
        digest: *const u8,
        digest_len: usize,
    ) -> u64;

    fn sevgharin_open(
        state: *mut u8,
        state_len: usize,
        bitmap: u32,
        log_1_2: *mut u8,
        log_1_2_len: usize,
        agile: *mut u8,
        agile_len: usize,
        table: *mut u8,
        table_len: usize,
    ) -> u64;

    fn sevgharin_request(
        state: *mut u8,
        state_len: usize,
        flags: u64,
        request: *const u8,
        request_len: usize,
        data: *const u8,
        data_len: usize,
        log_1_2: *mut u8,
        log_1_2_len: usize,
        agile: *mut u8,
        agile_len: usize,
        table: *mut u8,
        table_len: usize,
    ) -> u64;

    fn sevgharin_read_log(
        state: *mut u8,
        state_len: usize,
        format: u32,
        log_1_2: *const u8,
        log_1_2_len: usize,
        agile: *const u8,
        agile_len: usize,
        table: *const u8,
        table_len: usize,
        answer: *mut u8,
        answer_len: usize,
    ) -> u64;

    fn sevgharin_begin(
        replay: *mut u8,
        replay_len: usize,
        format: u32,
        log: *const u8,
        log_len: usize,
    ) -> u64;

    fn sevgharin_slice(
        replay: *mut u8,
        replay_len: usize,
        log: *const u8,
        log_len: usize,
        asked: u64,
        answer: *mut u8,
        answer_len: usize,
    ) -> u64;
}

// SAFETY, of every call below: each pointer and length come from one live
// slice, every written one is borrowed mutably and so overlaps no other, and
// the library keeps no pointer after it returns. The pointer of an empty
// slice is not null.

/// Writes the SHA-1 digest of `data` to `digest`, which must be as long as one.
pub fn sha1(data: &[u8], digest: &mut [u8]) -> u64 {
    unsafe { sevgharin_sha1(data.as_ptr(), data.len(), digest.as_mut_ptr(), digest.len()) }
}

/// Writes the SHA-256 digest of `data` to `digest`, which must be as long as
/// one.
pub fn sha256(data: &[u8], digest: &mut [u8]) -> u64 {
    unsafe { sevgharin_sha256(data.as_ptr(), data.len(), digest.as_mut_ptr(), digest.len()) }
}

/// Replaces `register` by the SHA-1 digest of `register` then `digest`, both
/// as long as one.
pub fn sha1_extend(register: &mut [u8], digest: &[u8]) -> u64 {
    unsafe {
        sevgharin_sha1_extend(
            register.as_mut_ptr(),
            register.len(),
            digest.as_ptr(),
            digest.len(),
        )
    }
}

/// Replaces `register` by the SHA-256 digest of `register` then `digest`,
/// both as long as one.
pub fn sha256_extend(register: &mut [u8], digest: &[u8]) -> u64 {
    unsafe {
        sevgharin_sha256_extend(
            register.as_mut_ptr(),
            register.len(),
            digest.as_ptr(),
            digest.len(),
        )
    }
}

/// What the archive says of itself: its interface, and the sizes of a state and
/// of a replay.
pub fn version() -> u64 {
    unsafe { sevgharin_version() }
}

/// Opens with the banks of `bitmap`: writes the state, which must be as long as
/// one, and the beginnings of the agile log and of the table.
pub fn open(state: &mut [u8], bitmap: u32, buffers: &mut Buffers) -> u64 {
    unsafe {
        sevgharin_open(
            state.as_mut_ptr(),
            state.len(),
            bitmap,
            buffers.log_1_2.as_mut_ptr(),
            buffers.log_1_2.len(),
            buffers.agile.as_mut_ptr(),
            buffers.agile.len(),
            buffers.table.as_mut_ptr(),
            buffers.table.len(),
        )
    }
}

/// HashLogExtendEvent: extends a register by the digests of `data`, and logs
/// the event of `request`.
pub fn request(
    state: &mut [u8],
    flags: u64,
    request: &[u8],
    data: &[u8],
    buffers: &mut Buffers,
) -> u64 {
    unsafe {
        sevgharin_request(
            state.as_mut_ptr(),
            state.len(),
            flags,
            request.as_ptr(),
            request.len(),
            data.as_ptr(),
            data.len(),
            buffers.log_1_2.as_mut_ptr(),
            buffers.log_1_2.len(),
            buffers.agile.as_mut_ptr(),
            buffers.agile.len(),
            buffers.table.as_mut_ptr(),
            buffers.table.len(),
        )
    }
}

/// GetEventLog: writes the marks of the log of `format` to `answer`, which
/// must be as long as a log's marks, and arms the table in the state.
pub fn read_log(state: &mut [u8], format: u32, buffers: &Buffers, answer: &mut [u8]) -> u64 {
    unsafe {
        sevgharin_read_log(
            state.as_mut_ptr(),
            state.len(),
            format,
            buffers.log_1_2.as_ptr(),
            buffers.log_1_2.len(),
            buffers.agile.as_ptr(),
            buffers.agile.len(),
            buffers.table.as_ptr(),
            buffers.table.len(),
            answer.as_mut_ptr(),
            answer.len(),
        )
    }
}

/// Begins the replay of a log's used octets: writes the replay, which must be
/// as long as one.
pub fn begin(replay: &mut [u8], format: u32, log: &[u8]) -> u64 {
    unsafe {
        sevgharin_begin(
            replay.as_mut_ptr(),
            replay.len(),
            format,
            log.as_ptr(),
            log.len(),
        )
    }
}

/// Takes at most `asked` entries of the log, moves the replay on, and writes
/// what it did to `answer`, which must be as long as a slice's answer record.
pub fn slice(replay: &mut [u8], log: &[u8], asked: u64, answer: &mut [u8]) -> u64 {
    unsafe {
        sevgharin_slice(
            replay.as_mut_ptr(),
            replay.len(),
            log.as_ptr(),
            log.len(),
            asked,
            answer.as_mut_ptr(),
            answer.len(),
        )
    }
}
