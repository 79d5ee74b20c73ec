//! Prints the digests of the listed messages, or writes the messages to files.

use lists::{print, Out};
use model::bank::BANKS;
use model::messages::listed;
use model::octets::hex;
use std::fs;
use std::io::{self, Write};
use std::path::Path;
use std::process::ExitCode;

fn main() -> ExitCode {
    let args: Vec<String> = std::env::args().skip(1).collect();
    let args: Vec<&str> = args.iter().map(String::as_str).collect();
    let done = match args[..] {
        [] => print(print_digests),
        ["--files", directory] => write_files(Path::new(directory)),
        _ => {
            eprintln!("usage: figures [--files DIR]");
            return ExitCode::from(2);
        }
    };
    match done {
        Ok(()) => ExitCode::SUCCESS,
        Err(error) => {
            eprintln!("figures: {error}");
            ExitCode::FAILURE
        }
    }
}

fn print_digests(out: &mut Out) -> io::Result<()> {
    for message in listed() {
        for bank in BANKS {
            let digest = hex(&bank.digest(&message.bytes));
            writeln!(out, "{} {} {digest}", bank.name, message.name)?;
        }
    }
    Ok(())
}

fn write_files(directory: &Path) -> io::Result<()> {
    fs::create_dir_all(directory)?;
    for message in listed() {
        fs::write(directory.join(message.name), message.bytes)?;
    }
    Ok(())
}
