//! Tests of lookups in a small program, and of files that are refused.

use limberlime::{debug_id, machine, version, Error, Frame, Program};
use std::fs;

const SHAPES: &str = "../../crates/pdb_symbolizer/data/shapes.pdb";
const FILES: &str = "../../crates/pdb_container_tests/data";
const MODULES: &str = "../../crates/pdb_report_tests/data/modules";

fn shapes() -> Program {
    Program::open_pdb(&fs::read(SHAPES).expect("the file is there")).expect("it opens")
}

fn error_of(name: &str) -> Option<Error> {
    let bytes = fs::read(format!("{FILES}/{name}")).expect("the file is there");
    Program::open_pdb(&bytes).err()
}

#[test]
fn inlined_calls_come_from_inside_to_outside() {
    let mut program = shapes();
    let frames = program.find_frames(0x1136).expect("it is answered");
    let wanted = [
        ("shapes::Point::length() const", r"C:\shapes\shapes.h", 10),
        ("Picture::draw(int)", r"C:\shapes\main.cpp", 29),
        ("Framed::draw(int)", r"C:\shapes\main.cpp", 36),
    ];
    let wanted = wanted.map(|(function, file, line)| Frame {
        function: Some(function),
        file: Some(file),
        line: Some(line),
    });
    assert_eq!(frames.iter().collect::<Vec<_>>(), wanted);
    assert_eq!(frames.iter().next_back(), Some(wanted[2]));
    assert_eq!(frames.iter().len(), 3);
}

#[test]
fn functions_come_by_where_they_start() {
    let mut program = shapes();
    let functions = program
        .functions()
        .collect::<Result<Vec<_>, _>>()
        .expect("it is answered");
    let named: Vec<_> = functions
        .iter()
        .filter(|function| function.name.is_some())
        .collect();
    let starts: Vec<_> = named.iter().map(|function| function.start).collect();
    assert_eq!(starts, [0x1000, 0x1020, 0x10e0, 0x1110, 0x1150, 0x1190, 0x1260]);
    assert_eq!(named[3].end, Some(0x114e));
    assert_eq!(named[3].name.as_deref(), Some("Framed::draw(int)"));
}

#[test]
fn nothing_lies_over_other_addresses() {
    let mut program = shapes();
    for address in [0, 0x10, u32::MAX] {
        assert!(program.find_frames(address).expect("it is answered").is_empty());
        assert!(program.find_function(address).expect("it is answered").is_empty());
    }
}

#[test]
fn a_file_that_is_kept_answers_as_its_bytes() {
    let bytes = fs::read(SHAPES).expect("the file is there");
    let mut whole = shapes();
    let mut parts = Program::open_in_place(bytes.clone()).expect("it opens");
    for address in 0x0ff0..0x1300 {
        let wanted = whole.find_frames(address).expect("it is answered");
        let found = parts.find_frames(address).expect("it is answered");
        assert!(found.iter().eq(wanted.iter()), "{address:#x}");
    }
    let mut parts = Program::open_in_place(bytes).expect("it opens");
    assert_eq!(parts.find_frames(0x1136).map(|frames| frames.len()), Ok(3));
    assert_eq!(parts.functions().count(), whole.functions().count());
    assert_eq!(parts.find_frames(0x1136).map(|frames| frames.len()), Ok(3));
    assert_eq!(Program::open_in_place("MZ").err(), Some(Error::Program));
}

#[test]
fn a_program_goes_to_another_thread() {
    let mut program = shapes();
    let asked = std::thread::spawn(move || {
        program
            .find_function(0x1136)
            .map(|found| found.iter().next().and_then(|f| f.function.map(String::from)))
    });
    let name = asked.join().expect("it ends").expect("it is answered");
    assert_eq!(name.as_deref(), Some("Framed::draw(int)"));
}

#[test]
fn files_that_are_none_are_refused_as_what_they_are() {
    assert_eq!(error_of("text.pdb"), Some(Error::NotAPdbFile));
    assert_eq!(error_of("program.exe"), Some(Error::Program));
    assert_eq!(error_of("portable.pdb"), Some(Error::PortablePdb));
    assert_eq!(error_of("compressed.pd_"), Some(Error::Compressed));
    assert_eq!(error_of("version_2.pdb"), Some(Error::OldPdbFile));
    assert_eq!(error_of("superblock_alone.pdb"), Some(Error::CutShort));
    assert_eq!(error_of("streams_too_long.pdb"), Some(Error::StreamsTooLong));
    assert_eq!(error_of("objects.pdb"), Some(Error::OfObjects));
    assert_eq!(error_of("old_types.pdb"), None);
    assert_eq!(error_of("stripped.pdb"), Some(Error::NoSectionHeaders));
    assert_eq!(error_of("rearranged_to.pdb"), Some(Error::Rearranged));
    assert_eq!(error_of("cut_debug.pdb"), Some(Error::BrokenStream));
    assert_eq!(Program::open_records(b"{").err(), Some(Error::NotJson));
    assert_eq!(Program::open_records(b"{}").err(), Some(Error::NoRecords));
    assert_eq!(shapes().report_names(&[]).err(), Some(Error::NoAddresses));
}

#[test]
fn module_files_are_handed_in_by_their_names() {
    let read = |name: &str| fs::read(format!("{MODULES}/{name}"));
    let records = read("two.json").expect("the file is there");
    assert_eq!(Program::open_records(&records).err(), Some(Error::ModuleFiles));
    let none = Program::open_records_with(&records, |_| None);
    assert_eq!(none.err(), Some(Error::CannotReadModule));
    let mut program = Program::open_records_with(&records, |name| read(name).ok()).expect("it opens");
    assert_eq!(
        program.report_names(&[0x1010, 0x1050]).as_deref(),
        Ok("0x1010 - f\u{fffd} 0x1010..0x1050\n0x1050 - g 0x1050..0x1090\n")
    );
}

#[test]
fn a_file_says_which_build_it_is_of() {
    let bytes = fs::read(SHAPES).expect("the file is there");
    assert_eq!(
        debug_id(&bytes).as_deref(),
        Ok("6B32B94164959A524C4C44205044422E1")
    );
    assert_eq!(debug_id(b"MZ").err(), Some(Error::Program));
    assert_eq!(machine(&bytes), Ok(0x8664));
    assert_eq!(machine(b"MZ").err(), Some(Error::Program));
}

#[test]
fn the_library_has_the_version_of_the_crate() {
    let (major, minor, patch) = version();
    assert_eq!(format!("{major}.{minor}.{patch}"), env!("CARGO_PKG_VERSION"));
}
