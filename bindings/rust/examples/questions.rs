//! Prints the milliseconds that opening a PDB file and the first lookup take, and those of each later lookup:
//!
//!     questions PDB ADDRESSES
//!
//! ADDRESSES is a file with one address per line, in hexadecimal digits, relative to the load address.

use limberlime::Program;
use std::error::Error;
use std::time::Instant;
use std::{env, fs};

fn main() -> Result<(), Box<dyn Error>> {
    let words: Vec<String> = env::args().skip(1).collect();
    let (pdb, addresses) = match words.as_slice() {
        [pdb, addresses] => (pdb, addresses),
        _ => return Err("usage: questions PDB ADDRESSES".into()),
    };
    let addresses = fs::read_to_string(addresses)?
        .split_whitespace()
        .map(|word| u32::from_str_radix(word.trim_start_matches("0x"), 16))
        .collect::<Result<Vec<u32>, _>>()?;
    let (first, later) = addresses.split_first().ok_or("no addresses")?;
    let bytes = fs::read(pdb)?;
    let start = Instant::now();
    let mut program = Program::open_pdb(&bytes)?;
    program.find_frames(*first)?;
    let opened = start.elapsed();
    let start = Instant::now();
    for address in later {
        let _ = program.find_frames(*address);
    }
    let asked = start.elapsed() / u32::try_from(later.len().max(1))?;
    println!("{} {}", opened.as_secs_f64() * 1e3, asked.as_secs_f64() * 1e3);
    Ok(())
}
