//! Frames, made from the rows and the texts that the library wrote.

use crate::calls::{Found, Place, Row};
use std::iter::FusedIterator;
use std::{fmt, slice, str};

/// A function whose code contains an address: the one that was called, or one that was inlined there.
#[derive(Debug, Clone, Copy, PartialEq, Eq, Hash)]
pub struct Frame<'a> {
    /// The function's name, if it is known: its signature, or the name of its symbol if the signature can't be printed.
    pub function: Option<&'a str>,
    /// The source file of the code, if it is known.
    pub file: Option<&'a str>,
    /// The line in that file, if it is known and isn't 0.
    pub line: Option<u32>,
}

/// The frames at an address: the innermost inlined function first, and the function that was called last.
#[derive(Clone, Copy)]
pub struct Frames<'a> {
    rows: &'a [Row],
    texts: &'a [u8],
    found: Found,
}

impl<'a> Frames<'a> {
    /// Frames over what the library wrote. `found` says how much of the buffers that is.
    pub(crate) fn new(rows: &'a [Row], texts: &'a [u8], found: Found) -> Self {
        Frames {
            rows: &rows[..found.rows],
            texts: &texts[..found.texts],
            found,
        }
    }

    /// Where the function starts, relative to where the program is loaded. It is 0 if there are no frames.
    pub fn start(&self) -> u32 {
        self.found.start
    }

    /// The address of the first byte after the function, if it is known.
    pub fn end(&self) -> Option<u32> {
        (self.found.end_known != 0).then_some(self.found.end)
    }

    /// How many frames there are.
    pub fn len(&self) -> usize {
        self.rows.len()
    }

    /// Whether no function contains the address.
    pub fn is_empty(&self) -> bool {
        self.rows.is_empty()
    }

    /// The frames, the innermost one first.
    pub fn iter(&self) -> Iter<'a> {
        Iter {
            rows: self.rows.iter(),
            texts: self.texts,
        }
    }
}

impl fmt::Debug for Frames<'_> {
    fn fmt(&self, formatter: &mut fmt::Formatter<'_>) -> fmt::Result {
        formatter.debug_list().entries(self.iter()).finish()
    }
}

impl<'a> IntoIterator for Frames<'a> {
    type Item = Frame<'a>;
    type IntoIter = Iter<'a>;

    fn into_iter(self) -> Iter<'a> {
        self.iter()
    }
}

impl<'a> IntoIterator for &Frames<'a> {
    type Item = Frame<'a>;
    type IntoIter = Iter<'a>;

    fn into_iter(self) -> Iter<'a> {
        self.iter()
    }
}

/// The frames at an address, one by one.
#[derive(Clone)]
pub struct Iter<'a> {
    rows: slice::Iter<'a, Row>,
    texts: &'a [u8],
}

impl<'a> Iter<'a> {
    fn frame(texts: &'a [u8], row: &Row) -> Frame<'a> {
        Frame {
            function: text(texts, row.function),
            file: text(texts, row.file),
            line: (row.line != 0).then_some(row.line),
        }
    }
}

/// The text at a place, if it is known. The library writes UTF-8.
fn text(texts: &[u8], place: Place) -> Option<&str> {
    let end = place.start.checked_add(place.length)?;
    str::from_utf8(texts.get(place.start..end)?).ok()
}

impl<'a> Iterator for Iter<'a> {
    type Item = Frame<'a>;

    fn next(&mut self) -> Option<Frame<'a>> {
        self.rows.next().map(|row| Iter::frame(self.texts, row))
    }

    fn size_hint(&self) -> (usize, Option<usize>) {
        self.rows.size_hint()
    }
}

impl DoubleEndedIterator for Iter<'_> {
    fn next_back(&mut self) -> Option<Self::Item> {
        self.rows.next_back().map(|row| Iter::frame(self.texts, row))
    }
}

impl ExactSizeIterator for Iter<'_> {}

impl FusedIterator for Iter<'_> {}

impl fmt::Debug for Iter<'_> {
    fn fmt(&self, formatter: &mut fmt::Formatter<'_>) -> fmt::Result {
        formatter.debug_list().entries(self.clone()).finish()
    }
}
