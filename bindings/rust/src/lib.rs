//! Functions, files, lines and inlined calls at addresses of a Windows program.
//!
//! ```
//! # fn main() -> Result<(), Box<dyn std::error::Error>> {
//! let file = std::fs::read("../../crates/pdb_symbolizer/data/shapes.pdb")?;
//! let mut program = limberlime::Program::open_pdb(&file)?;
//! let frames = program.find_frames(0x1136)?;
//! let innermost = frames.iter().next().ok_or("no function")?;
//! assert_eq!(innermost.function, Some("shapes::Point::length() const"));
//! assert_eq!(innermost.file, Some(r"C:\shapes\shapes.h"));
//! assert_eq!(innermost.line, Some(10));
//! assert_eq!(frames.len(), 3);
//! # Ok(())
//! # }
//! ```
//!
//! The calls are those of the library for C, which is written in Rattle and proved. Addresses are relative to where the
//! program is loaded.
#![deny(missing_docs)]

mod calls;
mod errors;
mod frames;
mod functions;
mod parts;

pub use errors::Error;
pub use frames::{Frame, Frames, Iter};
pub use functions::{Function, Functions};

use calls::{Buffers, FindCall, Handle};
use parts::{Left, PartFile};
use std::fmt;

/// A program's records, for many lookups. They are freed when this is dropped.
///
/// It may go to another thread, but threads can't share it:
///
/// ```
/// fn goes_to_another_thread<T: Send>() {}
/// goes_to_another_thread::<limberlime::Program>();
/// ```
///
/// ```compile_fail
/// fn is_shared_by_threads<T: Sync>() {}
/// is_shared_by_threads::<limberlime::Program>();
/// ```
pub struct Program {
    handle: Handle,
    buffers: Buffers,
    /// The file, as long as only parts of it were read.
    file: Option<PartFile>,
}

impl Program {
    /// Reads all records in the bytes of a PDB file. The bytes may be freed after that. Broken parts of the file are
    /// left out.
    ///
    /// # Errors
    ///
    /// The error says what the bytes are if they are not the PDB file of a program, or why nothing can be answered over
    /// them:
    ///
    /// ```
    /// use limberlime::{Error, Program};
    ///
    /// let error = Program::open_pdb(b"MZ, and then a program").err();
    /// assert_eq!(error, Some(Error::Program));
    /// ```
    pub fn open_pdb(pdb: &[u8]) -> Result<Program, Error> {
        Ok(Program::of(Handle::open_pdb(pdb)?))
    }

    /// Opens a PDB file by its bytes, such as a vector or a memory map, and keeps them. A lookup reads only what it
    /// needs. [`Program::functions`], [`Program::report_frames`] and [`Program::report_names`] read all of the file.
    /// Broken parts of the file are left out.
    ///
    /// # Errors
    ///
    /// Those of [`Program::open_pdb`].
    ///
    /// ```
    /// # fn main() -> Result<(), Box<dyn std::error::Error>> {
    /// let file = std::fs::read("../../crates/pdb_symbolizer/data/shapes.pdb")?;
    /// let mut program = limberlime::Program::open_in_place(file)?;
    /// assert_eq!(program.find_frames(0x1136)?.len(), 3);
    /// # Ok(())
    /// # }
    /// ```
    pub fn open_in_place(pdb: impl AsRef<[u8]> + Send + 'static) -> Result<Program, Error> {
        let mut handle = Handle::closed();
        let mut file = PartFile::new(Box::new(pdb));
        let left = file.read_part(&mut handle)?;
        let mut program = Program::of(handle);
        program.file = (left == Left::Modules).then_some(file);
        Ok(program)
    }

    /// Reads the records in the bytes of a records file.
    ///
    /// # Errors
    ///
    /// [`Error::NotJson`], [`Error::NoRecords`] or [`Error::ModuleFiles`] if the bytes are not such a file.
    /// [`Error::RecordsRefused`] if nothing can be answered over its records.
    pub fn open_records(records: &[u8]) -> Result<Program, Error> {
        Ok(Program::of(Handle::open_records(records)?))
    }

    /// Reads the records in the bytes of a records file and of the module files that it names. `module_file` gets the
    /// name of each module file, in the order in which the records file names them, and returns its bytes. A name that
    /// doesn't begin with a slash is relative to the folder of the records file.
    ///
    /// # Errors
    ///
    /// [`Error::CannotReadModule`] if `module_file` returns `None`, and the errors of [`Program::open_records`].
    pub fn open_records_with(
        records: &[u8],
        module_file: impl FnMut(&str) -> Option<Vec<u8>>,
    ) -> Result<Program, Error> {
        Ok(Program::of(Handle::open_records_with(records, module_file)?))
    }

    fn of(handle: Handle) -> Program {
        Program {
            handle,
            buffers: Buffers::new(),
            file: None,
        }
    }

    /// Reads what an answer at an address still needs.
    fn read_for(&mut self, address: u32) -> Result<(), Error> {
        if let Some(file) = &mut self.file {
            if file.read_for(&mut self.handle, address)? == Left::Nothing {
                self.file = None;
            }
        }
        Ok(())
    }

    /// Reads the rest of the file.
    fn read_whole(&mut self) -> Result<(), Error> {
        if let Some(file) = &self.file {
            file.read_whole(&mut self.handle)?;
            self.file = None;
        }
        Ok(())
    }

    /// The functions at an address, with files and lines, the innermost inlined function first. There are none if no
    /// function contains the address.
    ///
    /// # Errors
    ///
    /// [`Error::AddressRefused`] if the records of the address's module are broken, and [`Error::OutOfMemory`].
    pub fn find_frames(&mut self, address: u32) -> Result<Frames<'_>, Error> {
        self.read_for(address)?;
        self.buffers.find(&mut self.handle, FindCall::Frames, address)
    }

    /// The function that contains an address, as a single frame without file and line.
    ///
    /// # Errors
    ///
    /// [`Error::OutOfMemory`].
    ///
    /// ```
    /// # fn main() -> Result<(), Box<dyn std::error::Error>> {
    /// # let file = std::fs::read("../../crates/pdb_symbolizer/data/shapes.pdb")?;
    /// # let mut program = limberlime::Program::open_pdb(&file)?;
    /// let function = program.find_function(0x1136)?;
    /// assert!(function.start() <= 0x1136);
    /// assert!(function.end() > Some(0x1136));
    /// # Ok(())
    /// # }
    /// ```
    pub fn find_function(&mut self, address: u32) -> Result<Frames<'_>, Error> {
        self.read_for(address)?;
        self.buffers.find(&mut self.handle, FindCall::Function, address)
    }

    /// The functions of the program, sorted by start address.
    ///
    /// ```
    /// # fn main() -> Result<(), Box<dyn std::error::Error>> {
    /// # let file = std::fs::read("../../crates/pdb_symbolizer/data/shapes.pdb")?;
    /// # let mut program = limberlime::Program::open_pdb(&file)?;
    /// let functions = program.functions().collect::<Result<Vec<_>, _>>()?;
    /// assert!(functions.iter().any(|function| function.name.as_deref() == Some("Framed::draw(int)")));
    /// # Ok(())
    /// # }
    /// ```
    pub fn functions(&mut self) -> Functions<'_> {
        Functions::of(self)
    }

    /// The first address at or after this one at which a function starts.
    fn next_start(&mut self, address: u32) -> Result<Option<u32>, Error> {
        self.read_whole()?;
        let found = self
            .buffers
            .find(&mut self.handle, FindCall::NextStart, address)?;
        Ok((!found.is_empty()).then_some(found.start()))
    }

    /// The text that `pdb_report RECORDS frames ADDRESS..` prints for these addresses.
    ///
    /// # Errors
    ///
    /// [`Error::NoAddresses`], [`Error::AddressRefused`] if the records of a module of theirs are broken, and
    /// [`Error::OutOfMemory`].
    pub fn report_frames(&mut self, addresses: &[u32]) -> Result<String, Error> {
        self.read_whole()?;
        self.handle.report_frames(addresses)
    }

    /// The text that `pdb_report RECORDS names ADDRESS..` prints for these addresses.
    ///
    /// # Errors
    ///
    /// [`Error::NoAddresses`] and [`Error::OutOfMemory`].
    pub fn report_names(&mut self, addresses: &[u32]) -> Result<String, Error> {
        self.read_whole()?;
        self.handle.report_names(addresses)
    }
}

impl fmt::Debug for Program {
    fn fmt(&self, formatter: &mut fmt::Formatter<'_>) -> fmt::Result {
        formatter.debug_struct("Program").finish_non_exhaustive()
    }
}

/// The debug id of a PDB file, by which programs, symbol servers and crash reports name it: 32 digits, then the age.
///
/// # Errors
///
/// [`Error::NoDebugId`] if the file has none. If the bytes are not a PDB file, the error says what they are.
///
/// ```
/// # fn main() -> Result<(), Box<dyn std::error::Error>> {
/// let file = std::fs::read("../../crates/pdb_symbolizer/data/shapes.pdb")?;
/// assert_eq!(limberlime::debug_id(&file)?, "6B32B94164959A524C4C44205044422E1");
/// # Ok(())
/// # }
/// ```
pub fn debug_id(pdb: &[u8]) -> Result<String, Error> {
    calls::debug_id(pdb)
}

/// The machine type of a PDB file's program, by its number in program headers: 0x8664 for x86_64, 0x14c for x86, 0xaa64
/// for Arm64. It is 0 if the file doesn't say it.
///
/// # Errors
///
/// [`Error::NoDebugId`] if the file doesn't say which build it belongs to. If the bytes are not a PDB file, the error
/// says what they are.
pub fn machine(pdb: &[u8]) -> Result<u16, Error> {
    calls::machine(pdb)
}

/// The version of the library that is linked, as `(0, 2, 0)`.
pub fn version() -> (u32, u32, u32) {
    calls::version()
}
