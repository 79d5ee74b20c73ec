//! The lent bytes of a request, 01, "A request".

use crate::limits::{LONGEST_EVENT, REGISTERS};
use crate::octets::{u16_at, u32_at};

/// The bytes before the event. 01: "The event is the bytes from 18 up to size".
pub const HEAD: usize = 18;

/// The header size of a good request: the bytes of the header between the size
/// and the event.
pub const HEADER_SIZE: u32 = 14;

/// 01: "size u32, header size u32, header version u16 (not looked at), register
/// u32, type u32, event".
#[derive(Clone, Copy)]
pub struct Head {
    pub size: u32,
    pub header_size: u32,
    pub version: u16,
    pub register: u32,
    pub kind: u32,
}

impl Head {
    /// The good one of an event of this length.
    pub fn good(register: u32, kind: u32, event_len: usize) -> Head {
        Head {
            size: (HEAD + event_len) as u32,
            header_size: HEADER_SIZE,
            version: 1,
            register,
            kind,
        }
    }

    /// The lent bytes: the head, then the event and bytes past the size.
    pub fn before(&self, rest: &[u8]) -> Vec<u8> {
        let mut lent = Vec::with_capacity(HEAD + rest.len());
        lent.extend(self.size.to_le_bytes());
        lent.extend(self.header_size.to_le_bytes());
        lent.extend(self.version.to_le_bytes());
        lent.extend(self.register.to_le_bytes());
        lent.extend(self.kind.to_le_bytes());
        lent.extend(rest);
        lent
    }

    /// The head of lent bytes, if they are long enough for one.
    pub fn of(lent: &[u8]) -> Option<Head> {
        (lent.len() >= HEAD).then(|| Head {
            size: u32_at(lent, 0),
            header_size: u32_at(lent, 4),
            version: u16_at(lent, 8),
            register: u32_at(lent, 10),
            kind: u32_at(lent, 14),
        })
    }
}

/// A good request.
pub fn good(register: u32, kind: u32, event: &[u8]) -> Vec<u8> {
    Head::good(register, kind, event.len()).before(event)
}

/// What a request asks to log.
pub struct Event<'a> {
    pub register: u32,
    pub kind: u32,
    pub bytes: &'a [u8],
}

/// The event of a request whose lent bytes 01's status 2 does not refuse.
pub fn read(lent: &[u8]) -> Option<Event<'_>> {
    let head = Head::of(lent)?;
    if head.header_size != HEADER_SIZE || head.register >= REGISTERS {
        return None;
    }
    let bytes = lent.get(HEAD..head.size as usize)?;
    (bytes.len() <= LONGEST_EVENT).then_some(Event {
        register: head.register,
        kind: head.kind,
        bytes,
    })
}
