//! Prints what 001's request leaves, a short story and three refused openings.

mod panel;

use lists::{print, Out};
use model::bank::{ALL, SHA1, SHA256};
use model::messages::FOX;
use model::service::EXTEND_ONLY;
use panel::{Panel, Request};
use std::io;

/// The banks of the story.
const BOTH: u32 = SHA1 | SHA256;

/// 001's request.
const FOX_REQUEST: Request = Request {
    flags: 0,
    size: 36,
    register: 16,
    kind: 1,
    event: b"TCG2 Protocol Test",
    data: FOX,
};

fn main() -> io::Result<()> {
    print(print_all)
}

fn print_all(out: &mut Out) -> io::Result<()> {
    print_fox(out, "fox", 0)?;
    print_fox(out, "extend", EXTEND_ONLY)?;
    print_story(out)?;
    print_refused(out)
}

/// The request, and a reading of the agile log behind it.
fn ask_and_read(out: &mut Out, name: &str, mut panel: Panel, request: Request) -> io::Result<()> {
    panel.ask(out, name, request)?;
    panel.read(out, &format!("{name}-log"), 2)
}

/// 001's request for each bitmap.
fn print_fox(out: &mut Out, name: &str, flags: u64) -> io::Result<()> {
    for bitmap in 1..=ALL {
        let (_, panel) = Panel::open(bitmap, 300, 300, 300);
        let request = Request {
            flags,
            ..FOX_REQUEST
        };
        ask_and_read(out, &format!("{name}-{bitmap}"), panel, request)?;
    }
    Ok(())
}

/// The table is armed, and the agile log is filled until it is closed.
fn print_story(out: &mut Out) -> io::Result<()> {
    let (_, mut panel) = Panel::open(BOTH, 300, 300, 300);
    panel.read(out, "story-read-2", 2)?;
    for name in ["story-fox-1", "story-fox-2", "story-fox-3"] {
        panel.ask(out, name, FOX_REQUEST)?;
    }
    let extend_only = Request {
        flags: EXTEND_ONLY,
        ..FOX_REQUEST
    };
    panel.ask(out, "story-extend", extend_only)?;
    panel.read(out, "story-end-1", 1)?;
    panel.read(out, "story-end-2", 2)
}

fn print_refused(out: &mut Out) -> io::Result<()> {
    for (name, bitmap, agile, table) in [
        ("open-bitmap-0", 0, 200, 100),
        ("open-table-15", BOTH, 200, 15),
        ("open-agile-68", BOTH, 68, 100),
    ] {
        let (status, panel) = Panel::open(bitmap, 100, agile, table);
        panel.print(out, name, status)?;
    }
    Ok(())
}
