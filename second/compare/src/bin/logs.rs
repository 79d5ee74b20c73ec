//! Has the proved library write an agile log for each set of banks, and lists
//! beside it what a reader must find in it: each event's register, digests and
//! event length, and the registers of the state that the library handed back.

use model::bank::{active, digests, ALL};
use model::limits::LONGEST;
use model::octets::{hex, u64_at};
use model::random::Random;
use model::request::good;
use model::service::{at, Room, MARKS_BYTES, STATE_BYTES};
use std::fmt::Write;
use std::fs;
use std::path::{Path, PathBuf};

/// Types whose events tpm2_eventlog does not interpret.
const KINDS: [u32; 2] = [0x06, 0x0c];
/// It starts 17 to 22 at zero.
const ITS_REGISTERS: [u32; 18] = [0, 1, 2, 3, 4, 5, 6, 7, 8, 9, 10, 11, 12, 13, 14, 15, 16, 23];

fn main() {
    let Some(folder) = std::env::args().nth(1).map(PathBuf::from) else {
        panic!("usage: logs FOLDER");
    };
    for bitmap in 1..=ALL {
        write(&folder, bitmap);
    }
}

/// Writes bankN.log and bankN.txt.
fn write(folder: &Path, bitmap: u32) {
    let mut random = Random::new(u64::from(bitmap));
    let mut state = vec![0; STATE_BYTES];
    let mut room = Room::new(0, LONGEST, LONGEST, LONGEST);
    assert_eq!(linked::open(&mut state, bitmap, &mut room.lend()), 0);
    let mut list = String::new();
    for number in 1..=60 {
        let register = random.pick(&ITS_REGISTERS);
        let data = random.octets(1 + number * 7);
        let length = random.below(100);
        let event = random.octets(length);
        let request = good(register, random.pick(&KINDS), &event);
        let status = linked::request(&mut state, 0, &request, &data, &mut room.lend());
        assert_eq!(status, 0);
        write!(list, "event {number} {register}").unwrap();
        for digest in digests(bitmap, &data) {
            write!(list, " {} {}", digest.bank.name, hex(&digest.bytes)).unwrap();
        }
        writeln!(list, " {}", event.len()).unwrap();
    }
    for bank in active(bitmap) {
        for register in ITS_REGISTERS {
            let value = &state[at::REGISTERS..][bank.register(register)];
            // The tool prints only registers that the log extends.
            if value.iter().any(|octet| *octet != 0) {
                writeln!(list, "register {} {register} {}", bank.name, hex(value)).unwrap();
            }
        }
    }
    let mut answer = [0; MARKS_BYTES];
    assert_eq!(
        linked::read_log(&mut state, 2, &room.lend(), &mut answer),
        0
    );
    let log = &room.agile[..u64_at(&answer, 0) as usize];
    fs::write(folder.join(format!("bank{bitmap}.log")), log).expect("the log");
    fs::write(folder.join(format!("bank{bitmap}.txt")), list).expect("the list");
}
