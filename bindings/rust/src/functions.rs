//! The functions of a program, sorted by start address.

use crate::errors::Error;
use crate::frames::Frames;
use crate::Program;
use std::iter::FusedIterator;

/// A function's addresses, relative to where the program is loaded, and its name.
#[derive(Debug, Clone, PartialEq, Eq, Hash)]
pub struct Function {
    /// Where it starts.
    pub start: u32,
    /// The address of the first byte after it, if it is known.
    pub end: Option<u32>,
    /// Its name, if it is known.
    pub name: Option<String>,
}

impl Function {
    /// The function that a lookup found, if it found one.
    fn of(found: Frames<'_>) -> Option<Function> {
        found.iter().next().map(|frame| Function {
            start: found.start(),
            end: found.end(),
            name: frame.function.map(String::from),
        })
    }
}

/// The functions of a program, one by one. After an error there are no more.
#[derive(Debug)]
pub struct Functions<'p> {
    program: &'p mut Program,
    /// The lowest start that the next function may have. `None` after the last function.
    next: Option<u32>,
}

impl<'p> Functions<'p> {
    pub(crate) fn of(program: &'p mut Program) -> Self {
        Functions {
            program,
            next: Some(0),
        }
    }

    /// The first function that starts at or after an address.
    fn from(&mut self, address: u32) -> Result<Option<Function>, Error> {
        let mut untried = Some(address);
        while let Some(address) = untried {
            let start = match self.program.next_start(address)? {
                Some(start) => start,
                None => break,
            };
            untried = start.checked_add(1);
            if let Some(function) = Function::of(self.program.find_function(start)?) {
                self.next = untried;
                return Ok(Some(function));
            }
        }
        Ok(None)
    }
}

impl Iterator for Functions<'_> {
    type Item = Result<Function, Error>;

    fn next(&mut self) -> Option<Self::Item> {
        let address = self.next.take()?;
        self.from(address).transpose()
    }
}

impl FusedIterator for Functions<'_> {}
