//! A panel with its buffers, opened again whenever they are full.

use model::calls::Calls;
use model::entry::{agile_len, header_len};
use model::limits::LONGEST;
use model::request::good;
use model::service::{Room, MARKS_BYTES, STATE_BYTES};
use std::hint::black_box;
use timing::BOTH;

pub struct Panel {
    calls: Calls,
    armed: bool,
    /// The entries that there is room for.
    left: u64,
    /// With an empty event.
    request: Vec<u8>,
    pub state: Vec<u8>,
    room: Room,
}

impl Panel {
    pub fn new(calls: Calls, armed: bool) -> Panel {
        Panel {
            calls,
            armed,
            left: 0,
            request: good(0, 1, &[]),
            state: vec![0; STATE_BYTES],
            room: Room::new(0, LONGEST, LONGEST, LONGEST),
        }
    }

    /// Opens again if there is no room for so many entries.
    pub fn make_room(&mut self, entries: u64) {
        if self.left < entries {
            self.open();
        }
        self.left -= entries;
    }

    /// A reading arms the table. An agile entry is longer than a 1.2 entry, and
    /// the agile log has the longest beginning.
    fn open(&mut self) {
        let status = (self.calls.open)(&mut self.state, BOTH, &mut self.room.lend());
        assert_eq!(status, 0, "opening");
        if self.armed {
            let mut answer = [0; MARKS_BYTES];
            let buffers = self.room.lend();
            let status = (self.calls.read_log)(&mut self.state, 2, &buffers, &mut answer);
            assert_eq!(status, 0, "reading");
        }
        self.left = ((LONGEST - header_len(BOTH)) / agile_len(BOTH)) as u64;
    }

    pub fn request(&mut self, data: &[u8]) -> u64 {
        (self.calls.request)(
            &mut self.state,
            0,
            black_box(&self.request),
            black_box(data),
            &mut self.room.lend(),
        )
    }
}
