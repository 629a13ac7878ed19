//! A PDB file of which only parts were read so far.

use crate::calls::Handle;
use crate::errors::Error;

/// How often parts of a file are read. Each time, the tables of a context are built again, so after this many times all
/// of the file is read.
const ROUNDS: u32 = 16;

/// The bytes of a file, whoever owns them.
type Bytes = Box<dyn AsRef<[u8]> + Send>;

/// A PDB file of which only parts were read so far.
pub(crate) struct PartFile {
    bytes: Bytes,
    /// A flag for each module of the file: 1 if it was read, and else 0.
    flags: Vec<u8>,
    /// The addresses for which parts were read.
    addresses: Vec<u32>,
    rounds: u32,
}

/// What of a file wasn't read yet.
#[derive(Clone, Copy, PartialEq, Eq)]
pub(crate) enum Left {
    Nothing,
    Modules,
}

impl PartFile {
    /// A file of which nothing was read.
    pub(crate) fn new(bytes: Bytes) -> PartFile {
        PartFile {
            bytes,
            flags: Vec::new(),
            addresses: Vec::new(),
            rounds: 0,
        }
    }

    /// Reads what answers at all addresses that were asked for need.
    pub(crate) fn read_part(&mut self, handle: &mut Handle) -> Result<Left, Error> {
        handle.open_part((*self.bytes).as_ref(), &self.addresses, &mut self.flags)?;
        Ok(if self.flags.is_empty() {
            Left::Nothing
        } else {
            Left::Modules
        })
    }

    /// Reads all of the file.
    pub(crate) fn read_whole(&self, handle: &mut Handle) -> Result<Left, Error> {
        *handle = Handle::open_pdb((*self.bytes).as_ref())?;
        Ok(Left::Nothing)
    }

    /// Reads what an answer at an address still needs.
    pub(crate) fn read_for(&mut self, handle: &mut Handle, address: u32) -> Result<Left, Error> {
        if handle.is_read(address, &self.flags)? {
            return Ok(Left::Modules);
        }
        self.rounds += 1;
        if self.rounds > ROUNDS {
            return self.read_whole(handle);
        }
        self.addresses.push(address);
        let read = self.read_part(handle);
        if read.is_err() {
            self.addresses.pop();
        }
        read
    }
}
