//! The C calls: document 01's opening, requests and readings over a state that
//! lies in lent bytes, and its replay over one that lies in lent bytes.

use crate::replay::{
    self, answer_bytes, replay_bytes, replay_from, Replay, ANSWER_BYTES, REPLAY_BYTES,
};
use crate::service::{
    self, marks_bytes, state_bytes, state_from, Buffers, Status, MARKS_BYTES, STATE_BYTES,
};
use crate::store::Store;

/// The calls of one side of a comparison.
pub struct Calls {
    pub open: Open,
    pub request: Request,
    pub read_log: ReadLog,
    pub begin: Begin,
    pub slice: Slice,
}

pub type Open = fn(&mut [u8], u32, &mut Buffers) -> u64;
pub type Request = fn(&mut [u8], u64, &[u8], &[u8], &mut Buffers) -> u64;
pub type ReadLog = fn(&mut [u8], u32, &Buffers, &mut [u8]) -> u64;
pub type Begin = fn(&mut [u8], u32, &[u8]) -> u64;
pub type Slice = fn(&mut [u8], &[u8], u64, &mut [u8]) -> u64;

pub const MODEL: Calls = Calls {
    open,
    request,
    read_log,
    begin,
    slice,
};

/// What a replay's call answers where a buffer has another length. A replay's
/// numbers have no error bit.
const WRONG_LENGTH: u64 = 35;

/// The number of the set of calls.
const INTERFACE: u64 = 1;

/// The interface, and the sizes of a state and of a replay in sixteen bits each.
pub fn version() -> u64 {
    INTERFACE << 32 | (STATE_BYTES as u64) << 16 | REPLAY_BYTES as u64
}

/// The state handed out is written, the blank one of a refused opening too.
pub fn open(state: &mut [u8], bitmap: u32, buffers: &mut Buffers) -> u64 {
    if state.len() != STATE_BYTES {
        return Status::InvalidParameter.wire();
    }
    let (status, opened) = service::open(bitmap, buffers);
    state.copy_from_slice(&state_bytes(&opened));
    status.wire()
}

/// The state handed back is written on 0 and 11.
pub fn request(
    state: &mut [u8],
    flags: u64,
    request: &[u8],
    data: &[u8],
    buffers: &mut Buffers,
) -> u64 {
    let Some(mut kept) = state_from(state) else {
        return Status::DeviceError.wire();
    };
    let status = service::request(&mut kept, flags, request, data, buffers);
    if matches!(status, Status::Success | Status::VolumeFull) {
        state.copy_from_slice(&state_bytes(&kept));
    }
    status.wire()
}

/// The state is written on 0. An answer record of the marks' length is always
/// written, one of another length is a 2 and stays.
pub fn read_log(state: &mut [u8], format: u32, buffers: &Buffers, answer: &mut [u8]) -> u64 {
    let (status, marks) = match state_from(state) {
        None => (Status::DeviceError, Store::empty()),
        Some(mut kept) => {
            let (status, marks) = service::read_log(&mut kept, format, &buffers.lengths());
            if status == Status::Success {
                if answer.len() != MARKS_BYTES {
                    return Status::InvalidParameter.wire();
                }
                state.copy_from_slice(&state_bytes(&kept));
            }
            (status, marks)
        }
    };
    if answer.len() == MARKS_BYTES {
        answer.copy_from_slice(&marks_bytes(&marks));
    }
    status.wire()
}

/// The replay is written, the all-zero one of a refused beginning too.
pub fn begin(replay: &mut [u8], format: u32, log: &[u8]) -> u64 {
    if replay.len() != REPLAY_BYTES {
        return WRONG_LENGTH;
    }
    let (number, begun) = match replay::begin(format, log) {
        Ok(begun) => (0, begun),
        Err(refused) => (refused.number, Replay::zero()),
    };
    replay.copy_from_slice(&replay_bytes(&begun));
    number
}

/// The replay is written on 0 and on 31 to 34, the answer record always.
pub fn slice(replay: &mut [u8], log: &[u8], asked: u64, answer: &mut [u8]) -> u64 {
    let Some(mut kept) = replay_from(replay) else {
        return WRONG_LENGTH;
    };
    if answer.len() != ANSWER_BYTES {
        return WRONG_LENGTH;
    }
    let told = replay::slice(&mut kept, log, asked);
    answer.copy_from_slice(&answer_bytes(&told));
    let number = told.refused.map_or(0, |refused| refused.number);
    if !matches!(number, 35 | 36) {
        replay.copy_from_slice(&replay_bytes(&kept));
    }
    number
}

#[cfg(test)]
mod tests {
    use super::*;
    use crate::bank::ALL;
    use crate::limits::LONGEST;
    use crate::service::Room;

    const DEVICE_ERROR: u64 = (1 << 63) + 7;
    const INVALID_PARAMETER: u64 = (1 << 63) + 2;

    /// As little as an opening with both banks needs.
    fn room() -> Room {
        Room::new(0xa5, 0, 69, 16)
    }

    fn unwritten(room: &Room) -> bool {
        let bytes = [&room.log_1_2[..], &room.agile, &room.table].concat();
        bytes.iter().all(|&byte| byte == 0xa5)
    }

    fn opened() -> Vec<u8> {
        let mut state = vec![0xa5; STATE_BYTES];
        let status = open(&mut state, 3, &mut room().lend());
        assert_eq!(status, 0);
        state
    }

    fn read(state: &mut [u8], format: u32, answer: &mut [u8]) -> u64 {
        read_log(state, format, &room().lend(), answer)
    }

    #[test]
    fn opening() {
        for len in [0, STATE_BYTES - 1, STATE_BYTES + 1] {
            let mut state = vec![0xa5; len];
            let mut room = room();
            let status = open(&mut state, 3, &mut room.lend());
            assert_eq!(status, INVALID_PARAMETER);
            assert_eq!(state, vec![0xa5; len]);
            assert!(unwritten(&room));
        }
        let mut state = [0xa5; STATE_BYTES];
        let status = open(&mut state, 3, &mut Room::new(0xa5, 0, 68, 16).lend());
        assert_eq!(status, (1 << 63) + 5);
        assert_eq!(state, [0; STATE_BYTES]);
        assert_eq!(opened()[22..30], 69_u64.to_le_bytes());
    }

    #[test]
    fn readings() {
        let mut state = opened();
        for (format, len) in [(2, 17), (2, 19), (2, 0), (3, 17)] {
            let mut answer = vec![0xa5; len];
            assert_eq!(read(&mut state, format, &mut answer), INVALID_PARAMETER);
            assert_eq!(answer, vec![0xa5; len]);
            assert_eq!(state, opened());
        }
        let mut answer = [0xa5; 18];
        assert_eq!(read(&mut state, 3, &mut answer), INVALID_PARAMETER);
        assert_eq!((answer, &state), ([0; 18], &opened()));
        assert_eq!(read(&mut state, 2, &mut answer), 0);
        assert_eq!(answer[..10], [69, 0, 0, 0, 0, 0, 0, 0, 0, 1]);
        assert_eq!(state[57], 1);
        // 7 before 2.
        for (place, byte) in [(0, ALL as u8 + 1), (58, 2)] {
            let mut state = opened();
            state[place] = byte;
            let before = state.clone();
            let mut answer = [0xa5; 18];
            assert_eq!(read(&mut state, 3, &mut answer), DEVICE_ERROR);
            assert_eq!(answer, [0; 18]);
            let mut answer = [0xa5; 17];
            assert_eq!(read(&mut state, 2, &mut answer), DEVICE_ERROR);
            assert_eq!((answer, state), ([0xa5; 17], before));
        }
    }

    #[test]
    fn requests() {
        let lent = [18, 0, 0, 0, 14, 0, 0, 0, 0, 0, 1, 0, 0, 0, 0, 0, 0, 0];
        let mut room = room();
        let mut call =
            |state: &mut [u8], flags| request(state, flags, &lent, b"x", &mut room.lend());
        let mut state = opened();
        assert_eq!(call(&mut state, 0x10), (1 << 63) + 3);
        assert_eq!(state, opened());
        assert_eq!(call(&mut state, 0), (1 << 63) + 11);
        assert_eq!((state[12], state[30], state[58]), (1, 1, 1));
        state[58] = 2;
        let before = state.clone();
        assert_eq!(call(&mut state, 0), DEVICE_ERROR);
        assert_eq!(state, before);
        assert_eq!(call(&mut state[1..], 0), DEVICE_ERROR);
        assert!(unwritten(&room));
    }

    #[test]
    fn beginnings() {
        for len in [0, REPLAY_BYTES - 1, REPLAY_BYTES + 1] {
            let mut replay = vec![0xa5; len];
            assert_eq!(begin(&mut replay, 3, &[]), 35);
            assert_eq!(replay, vec![0xa5; len]);
        }
        for (format, number) in [(3, 38), (2, 37)] {
            let mut replay = [0xa5; REPLAY_BYTES];
            assert_eq!(begin(&mut replay, format, &[]), number);
            assert_eq!(replay, [0; REPLAY_BYTES]);
        }
        let mut replay = [0xa5; REPLAY_BYTES];
        assert_eq!(begin(&mut replay, 1, &[]), 0);
        assert_eq!(
            replay[..16],
            [1, 0, 0, 0, 1, 0, 0, 0, 0, 0, 0, 0, 0, 0, 0, 0]
        );
        assert_eq!((replay[16 + 17 * 20], replay[16 + 23 * 20]), (0xff, 0));
    }

    #[test]
    fn slices() {
        // Two entries of the 1.2 log; the second's register is 24.
        let mut log = [0; 64];
        log[32] = 24;
        let mut begun = [0; REPLAY_BYTES];
        assert_eq!(begin(&mut begun, 1, &log), 0);
        let edge = REPLAY_BYTES;
        for (len, answer_len) in [(edge - 1, 25), (edge, 24), (edge, 26), (0, 0)] {
            let mut replay = begun[..len].to_vec();
            let mut answer = vec![0xa5; answer_len];
            assert_eq!(slice(&mut replay, &log, 1, &mut answer), 35);
            assert_eq!(
                (&replay[..], answer),
                (&begun[..len], vec![0xa5; answer_len])
            );
        }
        let mut replay = begun;
        let mut answer = [0xa5; 25];
        assert_eq!(slice(&mut replay, &log, 9, &mut answer), 32);
        assert_eq!(
            (answer[0], answer[8], answer[16], answer[24]),
            (1, 32, 32, 0)
        );
        assert_eq!(replay[8], 32);
        assert_ne!(replay[16..], begun[16..]);
        // A place beyond the log, and a log that is too long, leave it.
        let before = replay;
        for (log, number) in [(vec![0; 31], 35), (vec![0; LONGEST + 1], 36)] {
            assert_eq!(slice(&mut replay, &log, 9, &mut answer), number);
            assert_eq!((answer[0], answer[8], answer[16]), (0, number as u8, 32));
            assert_eq!(replay, before);
        }
        assert_eq!(slice(&mut replay, &log[..32], 0, &mut answer), 0);
        assert_eq!(answer[24], 1);
    }
}
