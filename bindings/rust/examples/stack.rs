//! Prints the stack of each address of a PDB file or a records file, as `pdb_symbolizer -p PDB ADDRESS..` does:
//!
//!     stack PDB ADDRESS..
//!
//! An address is a hexadecimal number, relative to the load address.

use limberlime::{Error, Frames, Program};
use std::error;
use std::io::{self, Write};
use std::process::ExitCode;
use std::{env, fs};

fn main() -> ExitCode {
    let words: Vec<String> = env::args().skip(1).collect();
    match run(&words) {
        Ok(()) => ExitCode::SUCCESS,
        Err(error) => {
            eprintln!("stack: {error}");
            ExitCode::FAILURE
        }
    }
}

fn run(words: &[String]) -> Result<(), Box<dyn error::Error>> {
    let (file, addresses) = words.split_first().ok_or("usage: stack PDB ADDRESS..")?;
    let mut program = open(&fs::read(file)?)?;
    let mut out = io::BufWriter::new(io::stdout().lock());
    for word in addresses {
        let digits = word.trim_start_matches("0x");
        print_stack(&mut out, &mut program, u32::from_str_radix(digits, 16)?)?;
    }
    out.flush()?;
    Ok(())
}

/// Opens a PDB file. If it isn't one, opens it as a records file.
fn open(bytes: &[u8]) -> Result<Program, Error> {
    match Program::open_pdb(bytes) {
        Err(Error::NotAPdbFile) => Program::open_records(bytes).map_err(|_| Error::NotAPdbFile),
        opened => opened,
    }
}

fn print_stack(
    out: &mut impl Write,
    program: &mut Program,
    address: u32,
) -> Result<(), Box<dyn error::Error>> {
    match program.find_frames(address) {
        Ok(frames) => print_frames(out, frames)?,
        Err(Error::AddressRefused) => {
            eprintln!("stack: 0x{address:x}: {}", Error::AddressRefused);
            writeln!(out, "?? at ??:0:0")?;
        }
        Err(error) => return Err(error.into()),
    }
    writeln!(out)?;
    Ok(())
}

fn print_frames(out: &mut impl Write, frames: Frames<'_>) -> io::Result<()> {
    if frames.is_empty() {
        writeln!(out, "?? at ??:0:0")?;
    }
    for (depth, frame) in frames.iter().enumerate() {
        let before = if depth == 0 { "" } else { " (inlined by) " };
        let function = frame.function.unwrap_or("??");
        let file = frame.file.unwrap_or("??");
        writeln!(out, "{before}{function} at {file}:{}:0", frame.line.unwrap_or(0))?;
    }
    Ok(())
}
