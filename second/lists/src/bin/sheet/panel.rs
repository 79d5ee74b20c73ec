//! A panel with its buffers, and the calls on it that print what they leave.

use lists::{Out, UNWRITTEN};
use model::octets::hex;
use model::request::Head;
use model::service::{self, Room, State, Status};
use model::sha256;
use std::io::{self, Write};

/// A request: its flags, the fields of its lent bytes, and its data.
#[derive(Clone, Copy)]
pub struct Request<'a> {
    pub flags: u64,
    pub size: u32,
    pub register: u32,
    pub kind: u32,
    pub event: &'a [u8],
    pub data: &'a [u8],
}

impl Request<'_> {
    fn lent(&self) -> Vec<u8> {
        let head = Head {
            size: self.size,
            ..Head::good(self.register, self.kind, self.event.len())
        };
        head.before(self.event)
    }
}

pub struct Panel {
    state: State,
    room: Room,
}

impl Panel {
    pub fn open(bitmap: u32, log_1_2: usize, agile: usize, table: usize) -> (Status, Panel) {
        let mut room = Room::new(UNWRITTEN, log_1_2, agile, table);
        let (status, state) = service::open(bitmap, &mut room.lend());
        (status, Panel { state, room })
    }

    pub fn ask(&mut self, out: &mut Out, name: &str, request: Request) -> io::Result<()> {
        let (flags, lent) = (request.flags, request.lent());
        let buffers = &mut self.room.lend();
        let status = service::request(&mut self.state, flags, &lent, request.data, buffers);
        self.print(out, name, status)
    }

    pub fn read(&mut self, out: &mut Out, name: &str, format: u32) -> io::Result<()> {
        let lengths = self.room.lend().lengths();
        let (status, log) = service::read_log(&mut self.state, format, &lengths);
        let last = log
            .last
            .map_or("none".to_string(), |place| place.to_string());
        let (closed, armed) = (u8::from(log.closed), u8::from(self.state.armed));
        let (number, used) = (status as u8, log.used);
        writeln!(out, "{name} {number} {used} {last} {closed} {armed}")
    }

    /// The status, and all that an opening or a request leaves.
    pub fn print(&self, out: &mut Out, name: &str, status: Status) -> io::Result<()> {
        let State {
            log_1_2,
            agile,
            table,
            armed,
            full,
            registers,
            ..
        } = &self.state;
        let table = &table.store;
        let used = format!("{} {} {}", log_1_2.used, agile.used, table.used);
        let flags =
            [log_1_2.closed, agile.closed, *armed, *full].map(|flag| u8::from(flag).to_string());
        let buffers =
            [&self.room.log_1_2, &self.room.agile, &self.room.table].map(|buffer| hex(buffer));
        writeln!(
            out,
            "{name} {} {used} {} {} {}",
            status as u8,
            flags.join(" "),
            buffers.join(" "),
            hex(&sha256::digest(registers))
        )
    }
}
