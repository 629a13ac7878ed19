//! Why a call has no answer.

use std::fmt;

/// Why a call has no answer.
#[derive(Debug, Clone, Copy, PartialEq, Eq, Hash)]
#[non_exhaustive]
pub enum Error {
    /// No addresses were given.
    NoAddresses,
    /// The bytes are not a JSON text.
    NotJson,
    /// The JSON text has no records: a value is missing, of the wrong kind, or out of range.
    NoRecords,
    /// The records file names module files, which only [`open_records_with`](crate::Program::open_records_with) reads.
    ModuleFiles,
    /// The records are refused, for example because two modules claim the same bytes.
    RecordsRefused,
    /// The records of an address's module are broken.
    AddressRefused,
    /// Memory ran out. The same call may succeed later.
    OutOfMemory,
    /// The bytes are not a PDB file.
    NotAPdbFile,
    /// The bytes are a program (EXE or DLL), not its PDB file.
    Program,
    /// The bytes are a portable PDB file, which a program for .NET has.
    PortablePdb,
    /// The bytes are a compressed file from a symbol store.
    Compressed,
    /// The bytes are a PDB file of version 2.00, which has another format.
    OldPdbFile,
    /// The bytes end before the end of the file's directory of streams.
    CutShort,
    /// The streams of the PDB file are together longer than the file.
    StreamsTooLong,
    /// The PDB file describes the objects of a compiler, not a program.
    OfObjects,
    /// The types of the PDB file have a form from before 2005. No call returns this: functions then have the names of
    /// their symbols.
    OldTypes,
    /// The PDB file has no section headers, so nothing says where code is.
    NoSectionHeaders,
    /// Code was rearranged after linking (OMAP), and answers would have wrong addresses.
    Rearranged,
    /// A stream that all answers need is broken.
    BrokenStream,
    /// The PDB file has no debug id, so nothing says which build it belongs to.
    NoDebugId,
    /// The caller's function can't read a module file that the records file names.
    CannotReadModule,
    /// A number that this version doesn't know.
    Unknown(i64),
}

/// Each error, with its number in the library and its message.
const ERRORS: [(i64, Error, &str); 21] = [
    (-2, Error::NoAddresses, "no addresses"),
    (-3, Error::NotJson, "not a JSON text"),
    (-4, Error::NoRecords, "no records"),
    (-5, Error::ModuleFiles, "module files"),
    (-6, Error::RecordsRefused, "the records are refused"),
    (
        -7,
        Error::AddressRefused,
        "the records of the address's module are refused",
    ),
    (-8, Error::OutOfMemory, "out of memory"),
    (-11, Error::NotAPdbFile, "not a PDB file"),
    (-12, Error::Program, "a program (EXE or DLL), not its PDB file"),
    (-13, Error::PortablePdb, "a .NET portable PDB"),
    (-14, Error::Compressed, "a compressed file (CAB, .pd_)"),
    (-15, Error::OldPdbFile, "a PDB file of version 2.00 (JG)"),
    (
        -16,
        Error::CutShort,
        "the file is cut short before the end of its directory",
    ),
    (
        -17,
        Error::StreamsTooLong,
        "the streams are longer than the file together",
    ),
    (
        -18,
        Error::OfObjects,
        "a compiler's PDB file, of objects and not of a program",
    ),
    (-19, Error::OldTypes, "types made by a version from before 2005"),
    (-20, Error::NoSectionHeaders, "no section headers (stripped)"),
    (-21, Error::Rearranged, "rearranged addresses (OMAP)"),
    (-22, Error::BrokenStream, "a broken stream"),
    (-23, Error::NoDebugId, "no debug id"),
    (-24, Error::CannotReadModule, "cannot read a module file"),
];

impl Error {
    /// The error with this number.
    pub(crate) fn of_number(number: i64) -> Error {
        ERRORS
            .iter()
            .find(|row| row.0 == number)
            .map_or(Error::Unknown(number), |row| row.1)
    }
}

impl fmt::Display for Error {
    fn fmt(&self, formatter: &mut fmt::Formatter<'_>) -> fmt::Result {
        match (self, ERRORS.iter().find(|row| row.1 == *self)) {
            (_, Some(row)) => formatter.write_str(row.2),
            (Error::Unknown(number), None) => write!(formatter, "unknown refusal {number}"),
            (other, None) => write!(formatter, "{other:?}"),
        }
    }
}

impl std::error::Error for Error {}
