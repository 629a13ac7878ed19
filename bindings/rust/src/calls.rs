//! The library's calls with Rust's types. `include/limberlime.h` says what they mean, and what callers must ensure.

use crate::errors::Error;
use crate::frames::Frames;
use std::ffi::c_void;
use std::ptr;

/// A handle. Only the library uses its pointers. The second is null if the handle is closed.
#[repr(C)]
pub(crate) struct Handle {
    records: *mut c_void,
    context: *mut c_void,
}

/// Where a text is among the texts of an answer. A text that is unknown starts at `usize::MAX`.
#[repr(C)]
#[derive(Clone, Copy, Default)]
pub(crate) struct Place {
    pub(crate) start: usize,
    pub(crate) length: usize,
}

/// A frame as the library writes it.
#[repr(C)]
#[derive(Clone, Copy, Default)]
pub(crate) struct Row {
    pub(crate) function: Place,
    pub(crate) file: Place,
    pub(crate) line: u32,
}

/// How many rows an answer has, how many bytes its texts have, and its function's addresses.
#[repr(C)]
#[derive(Clone, Copy, Default)]
pub(crate) struct Found {
    pub(crate) rows: usize,
    pub(crate) texts: usize,
    pub(crate) start: u32,
    pub(crate) end: u32,
    pub(crate) end_known: u32,
}

type ReportFunction = unsafe extern "C" fn(*mut Handle, *const u32, usize, *mut u8, usize, *mut usize) -> i64;

type FindFunction =
    unsafe extern "C" fn(*mut Handle, u32, *mut Row, usize, *mut u8, usize, *mut Found) -> i64;

extern "C" {
    fn limberlime_open_unchecked(records: *const u8, length: usize, handle: *mut Handle) -> i64;

    fn limberlime_module_files_unchecked(
        records: *const u8,
        length: usize,
        buffer: *mut u8,
        capacity: usize,
        wanted: *mut usize,
    ) -> i64;

    fn limberlime_open_records_unchecked(
        records: *const u8,
        length: usize,
        contents: *const u8,
        contents_length: usize,
        lengths: *const usize,
        count: usize,
        handle: *mut Handle,
    ) -> i64;

    fn limberlime_machine_unchecked(pdb: *const u8, length: usize) -> i64;

    fn limberlime_open_pdb_unchecked(pdb: *const u8, length: usize, handle: *mut Handle) -> i64;

    fn limberlime_open_part_unchecked(
        pdb: *const u8,
        length: usize,
        addresses: *const u32,
        count: usize,
        flags: *mut u8,
        capacity: usize,
        modules: *mut usize,
        handle: *mut Handle,
    ) -> i64;

    fn limberlime_is_read_unchecked(
        handle: *mut Handle,
        address: u32,
        flags: *const u8,
        modules: usize,
    ) -> i64;

    fn limberlime_debug_id_unchecked(
        pdb: *const u8,
        length: usize,
        buffer: *mut u8,
        capacity: usize,
        wanted: *mut usize,
    ) -> i64;

    fn limberlime_find_frames_unchecked(
        handle: *mut Handle,
        address: u32,
        rows: *mut Row,
        row_capacity: usize,
        texts: *mut u8,
        text_capacity: usize,
        found: *mut Found,
    ) -> i64;

    fn limberlime_find_function_unchecked(
        handle: *mut Handle,
        address: u32,
        rows: *mut Row,
        row_capacity: usize,
        texts: *mut u8,
        text_capacity: usize,
        found: *mut Found,
    ) -> i64;

    fn limberlime_frames_of_unchecked(
        handle: *mut Handle,
        addresses: *const u32,
        count: usize,
        buffer: *mut u8,
        capacity: usize,
        wanted: *mut usize,
    ) -> i64;

    fn limberlime_names_of_unchecked(
        handle: *mut Handle,
        addresses: *const u32,
        count: usize,
        buffer: *mut u8,
        capacity: usize,
        wanted: *mut usize,
    ) -> i64;

    fn limberlime_next_start_unchecked(
        handle: *mut Handle,
        address: u32,
        rows: *mut Row,
        row_capacity: usize,
        texts: *mut u8,
        text_capacity: usize,
        found: *mut Found,
    ) -> i64;

    fn limberlime_close_unchecked(handle: *mut Handle);

    fn limberlime_version_unchecked() -> i64;
}

/// The number that a call answers if the buffers are too small.
const BUFFER_TOO_SMALL: i64 = -9;

/// The sizes of the first buffers. Most answers fit.
const FIRST_ROWS: usize = 16;
const FIRST_BYTES: usize = 1024;

/// A debug id has 32 digits, and up to eight of the age.
const DEBUG_ID_BYTES: usize = 40;

// The library proves that a handle may go to another thread. Only one call at a time may use it, so no call takes it by
// `&self`, and threads can't share it.
unsafe impl Send for Handle {}

impl Handle {
    pub(crate) fn closed() -> Handle {
        Handle {
            records: ptr::null_mut(),
            context: ptr::null_mut(),
        }
    }

    pub(crate) fn open_pdb(pdb: &[u8]) -> Result<Handle, Error> {
        let mut handle = Handle::closed();
        // SAFETY: the pointer is the slice's, with its length, and the handle is closed, as before its first call.
        let answer = unsafe { limberlime_open_pdb_unchecked(pdb.as_ptr(), pdb.len(), &mut handle) };
        length_of(answer).map(|_| handle)
    }

    /// Reads what answers at these addresses need of a PDB file. After that there is a flag for each module, 1 if it was
    /// read. There are no flags if all of the file was read.
    pub(crate) fn open_part(
        &mut self,
        pdb: &[u8],
        addresses: &[u32],
        flags: &mut Vec<u8>,
    ) -> Result<(), Error> {
        let mut open = |flags: &mut Vec<u8>| {
            let mut modules = 0;
            // SAFETY: the pointers are the slices', the vector's and the references', with their lengths; the library
            // alone writes the handle, which this call borrows alone.
            let answer = unsafe {
                limberlime_open_part_unchecked(
                    pdb.as_ptr(),
                    pdb.len(),
                    addresses.as_ptr(),
                    addresses.len(),
                    flags.as_mut_ptr(),
                    flags.len(),
                    &mut modules,
                    self,
                )
            };
            (answer, modules)
        };
        let (mut answer, mut modules) = open(flags);
        if answer == BUFFER_TOO_SMALL {
            flags.resize(modules, 0);
            (answer, modules) = open(flags);
        }
        length_of(answer)?;
        flags.truncate(modules);
        Ok(())
    }

    /// Whether the module that has the code at an address was read, by these flags.
    pub(crate) fn is_read(&mut self, address: u32, flags: &[u8]) -> Result<bool, Error> {
        // SAFETY: the pointer is the slice's, with its length; the library alone writes the handle, which this call
        // borrows alone.
        let answer = unsafe { limberlime_is_read_unchecked(self, address, flags.as_ptr(), flags.len()) };
        length_of(answer).map(|read| read == 1)
    }

    pub(crate) fn open_records(records: &[u8]) -> Result<Handle, Error> {
        let mut handle = Handle::closed();
        // SAFETY: as in `open_pdb`.
        let answer = unsafe { limberlime_open_unchecked(records.as_ptr(), records.len(), &mut handle) };
        length_of(answer).map(|_| handle)
    }

    pub(crate) fn open_records_with(
        records: &[u8],
        mut module_file: impl FnMut(&str) -> Option<Vec<u8>>,
    ) -> Result<Handle, Error> {
        let mut contents = Vec::new();
        let mut lengths = Vec::new();
        for name in module_files(records)?.split_terminator('\0') {
            let file = module_file(name).ok_or(Error::CannotReadModule)?;
            contents.extend_from_slice(&file);
            lengths.push(file.len());
        }
        let mut handle = Handle::closed();
        // SAFETY: the pointers are the slice's and the vectors', with their lengths, and the handle is closed, as
        // before its first call.
        let answer = unsafe {
            limberlime_open_records_unchecked(
                records.as_ptr(),
                records.len(),
                contents.as_ptr(),
                contents.len(),
                lengths.as_ptr(),
                lengths.len(),
                &mut handle,
            )
        };
        length_of(answer).map(|_| handle)
    }

    pub(crate) fn report_frames(&mut self, addresses: &[u32]) -> Result<String, Error> {
        self.report(limberlime_frames_of_unchecked, addresses)
    }

    pub(crate) fn report_names(&mut self, addresses: &[u32]) -> Result<String, Error> {
        self.report(limberlime_names_of_unchecked, addresses)
    }

    fn report(&mut self, call: ReportFunction, addresses: &[u32]) -> Result<String, Error> {
        text_of(FIRST_BYTES, |buffer, wanted| {
            // SAFETY: the pointers are the slices' and the reference's, with their lengths; the library alone writes
            // the handle, which this call borrows alone.
            unsafe {
                call(
                    self,
                    addresses.as_ptr(),
                    addresses.len(),
                    buffer.as_mut_ptr(),
                    buffer.len(),
                    wanted,
                )
            }
        })
    }
}

impl Drop for Handle {
    fn drop(&mut self) {
        // SAFETY: the library alone has written the handle, and no call has it any more.
        unsafe { limberlime_close_unchecked(self) }
    }
}

/// The debug id of a PDB file.
pub(crate) fn debug_id(pdb: &[u8]) -> Result<String, Error> {
    text_of(DEBUG_ID_BYTES, |buffer, wanted| {
        // SAFETY: the pointers are the slices' and the reference's, with their lengths.
        unsafe {
            limberlime_debug_id_unchecked(pdb.as_ptr(), pdb.len(), buffer.as_mut_ptr(), buffer.len(), wanted)
        }
    })
}

/// The names of the module files that a records file names, each followed by a 0.
fn module_files(records: &[u8]) -> Result<String, Error> {
    text_of(FIRST_BYTES, |buffer, wanted| {
        // SAFETY: the pointers are the slices' and the reference's, with their lengths.
        unsafe {
            limberlime_module_files_unchecked(
                records.as_ptr(),
                records.len(),
                buffer.as_mut_ptr(),
                buffer.len(),
                wanted,
            )
        }
    })
}

/// The machine type of a PDB file's program.
pub(crate) fn machine(pdb: &[u8]) -> Result<u16, Error> {
    // SAFETY: the pointer is the slice's, with its length.
    let answer = unsafe { limberlime_machine_unchecked(pdb.as_ptr(), pdb.len()) };
    u16::try_from(answer).map_err(|_| Error::of_number(answer))
}

/// The version of the library, whose number is major * 1000000 + minor * 1000 + patch.
pub(crate) fn version() -> (u32, u32, u32) {
    // SAFETY: the call has no arguments.
    let number = u32::try_from(unsafe { limberlime_version_unchecked() }).unwrap_or(0);
    (number / 1_000_000, number / 1000 % 1000, number % 1000)
}

/// The length that a call answered, or the error with the number that it answered.
fn length_of(answer: i64) -> Result<usize, Error> {
    usize::try_from(answer).map_err(|_| Error::of_number(answer))
}

/// The text that a call writes. If the first buffer is too small, the call says how long the text is.
fn text_of(capacity: usize, mut call: impl FnMut(&mut [u8], &mut usize) -> i64) -> Result<String, Error> {
    let mut buffer = vec![0; capacity];
    let mut wanted = 0;
    let mut answer = call(&mut buffer, &mut wanted);
    if answer == BUFFER_TOO_SMALL {
        buffer.resize(wanted, 0);
        answer = call(&mut buffer, &mut wanted);
    }
    buffer.truncate(length_of(answer)?);
    Ok(String::from_utf8_lossy(&buffer).into_owned())
}

/// The question about an address.
#[derive(Clone, Copy)]
pub(crate) enum FindCall {
    Frames,
    Function,
    NextStart,
}

impl FindCall {
    fn function(self) -> FindFunction {
        match self {
            FindCall::Frames => limberlime_find_frames_unchecked,
            FindCall::Function => limberlime_find_function_unchecked,
            FindCall::NextStart => limberlime_next_start_unchecked,
        }
    }
}

/// The memory of the last answer.
pub(crate) struct Buffers {
    rows: Vec<Row>,
    texts: Vec<u8>,
}

impl Buffers {
    pub(crate) fn new() -> Buffers {
        Buffers {
            rows: vec![Row::default(); FIRST_ROWS],
            texts: vec![0; FIRST_BYTES],
        }
    }

    /// Asks about an address. If the answer doesn't fit, asks again with larger buffers.
    pub(crate) fn find(
        &mut self,
        handle: &mut Handle,
        call: FindCall,
        address: u32,
    ) -> Result<Frames<'_>, Error> {
        let mut found = Found::default();
        loop {
            // SAFETY: the pointers are the vectors' and the references', with their lengths; the library alone writes
            // the handle, which this call borrows alone.
            let answer = unsafe {
                call.function()(
                    handle,
                    address,
                    self.rows.as_mut_ptr(),
                    self.rows.len(),
                    self.texts.as_mut_ptr(),
                    self.texts.len(),
                    &mut found,
                )
            };
            match answer {
                0 => return Ok(Frames::new(&self.rows, &self.texts, found)),
                BUFFER_TOO_SMALL => self.grow(&found),
                refused => return Err(Error::of_number(refused)),
            }
        }
    }

    fn grow(&mut self, found: &Found) {
        if self.rows.len() < found.rows {
            self.rows.resize(found.rows.next_power_of_two(), Row::default());
        }
        if self.texts.len() < found.texts {
            self.texts.resize(found.texts.next_power_of_two(), 0);
        }
    }
}
