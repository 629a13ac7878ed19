//! Prints what `pdb_report` prints for addresses. It reads the records once, for all addresses:
//!
//!     opened RECORDS (frames|names) ADDRESS..
//!
//! Each address is looked up by a call of its own. An address is a hexadecimal number. The exit status is 1 if the
//! library refuses the records or a call, and 2 for all other errors.

use limberlime::{Error, Program};
use std::io::Write;
use std::process::ExitCode;
use std::{env, fs, io};

type Call = fn(&mut Program, &[u32]) -> Result<String, Error>;

fn main() -> ExitCode {
    let words: Vec<String> = env::args().collect();
    match run(words.get(1..).unwrap_or_default()) {
        Ok(()) => ExitCode::SUCCESS,
        Err((status, message)) => {
            eprintln!("{message}");
            ExitCode::from(status)
        }
    }
}

fn run(words: &[String]) -> Result<(), (u8, String)> {
    let usage = || (2, "usage: opened RECORDS (frames|names) ADDRESS..".to_string());
    let (records, call, addresses) = match words {
        [records, command, addresses @ ..] => (records, call(command).ok_or_else(usage)?, addresses),
        _ => return Err(usage()),
    };
    let addresses = addresses
        .iter()
        .map(|word| address(word))
        .collect::<Result<Vec<u32>, _>>();
    let addresses =
        addresses.map_err(|_| (2, "opened: an address is a hexadecimal number of 32 bits".into()))?;
    let records = fs::read(records).map_err(|_| (2, format!("opened: cannot read {records}")))?;
    let text = texts(call, &records, &addresses).map_err(|error| (1, format!("opened: {error}")))?;
    let written = io::stdout().write_all(text.as_bytes());
    written.map_err(|_| (2, "opened: cannot write".into()))
}

fn call(command: &str) -> Option<Call> {
    match command {
        "frames" => Some(Program::report_frames),
        "names" => Some(Program::report_names),
        _ => None,
    }
}

/// The texts of all addresses, one call for each.
fn texts(call: Call, records: &[u8], addresses: &[u32]) -> Result<String, Error> {
    let mut program = Program::open_records(records)?;
    addresses
        .iter()
        .map(|address| call(&mut program, &[*address]))
        .collect()
}

fn address(word: &str) -> Result<u32, std::num::ParseIntError> {
    u32::from_str_radix(word.trim_start_matches("0x"), 16)
}
