//! Tables that are read as they are iterated over.

use alloc::vec::{self, Vec};
use core::fmt;

use pef_sys as sys;

use crate::raw::{self, Number};
use crate::tables::{Export, Import, Library, Relocation};

/// Reads rows from a number on, at most so many.
type Call<Row> = fn(&[u8], usize, usize) -> Result<Vec<Row>, Number>;

/// How many rows of an unknown number are read first. Each call reads the whole container, so later ones read more.
const FIRST: usize = 256;
const MOST: usize = 1 << 14;

/// The rows of a table, of which some are read at once.
pub(crate) struct Rows<'a, Row> {
    bytes: &'a [u8],
    call: Call<Row>,
    read: vec::IntoIter<Row>,
    /// How many were read, and how many are read next; 0 at the end.
    count: usize,
    next: usize,
    /// How many there are, if it is known.
    all: Option<usize>,
}

impl<'a, Row> Rows<'a, Row> {
    pub(crate) fn new(bytes: &'a [u8], all: Option<usize>, call: Call<Row>) -> Self {
        Self { bytes, call, read: Vec::new().into_iter(), count: 0, next: all.unwrap_or(FIRST).min(MOST), all }
    }

    /// The next row, with its number.
    fn next_row(&mut self) -> Option<(usize, Row)> {
        if self.read.len() == 0 && self.next > 0 {
            self.read_more();
        }
        let number = self.count - self.read.len();
        self.read.next().map(|row| (number, row))
    }

    /// What was read without an error once is read again, so an error means that there is no such table.
    fn read_more(&mut self) {
        let rows = (self.call)(self.bytes, self.count, self.next).unwrap_or_default();
        self.count += rows.len();
        self.next = match self.all {
            _ if rows.len() < self.next => 0,
            Some(all) => (all - self.count).min(MOST),
            None => (2 * self.next).min(MOST),
        };
        self.read = rows.into_iter();
    }

    fn size_hint(&self) -> (usize, Option<usize>) {
        let read = self.read.len();
        match self.all {
            Some(all) => (read, Some(all - (self.count - read))),
            None => (read, None),
        }
    }
}

/// An iterator over a table of a container.
macro_rules! iterators {
    ($($(#[$doc:meta])* $name:ident: $row:ident, $item:ident, $make:expr;)*) => {
        $(
            $(#[$doc])*
            pub struct $name<'a>(Rows<'a, sys::$row>);

            impl<'a> $name<'a> {
                pub(crate) fn new(bytes: &'a [u8], all: Option<usize>, call: Call<sys::$row>) -> Self {
                    Self(Rows::new(bytes, all, call))
                }
            }

            impl<'a> Iterator for $name<'a> {
                type Item = $item<'a>;

                fn next(&mut self) -> Option<Self::Item> {
                    let make: fn(&'a [u8], usize, &sys::$row) -> $item<'a> = $make;
                    let (number, row) = self.0.next_row()?;
                    Some(make(self.0.bytes, number, &row))
                }

                fn size_hint(&self) -> (usize, Option<usize>) {
                    self.0.size_hint()
                }
            }

            impl core::iter::FusedIterator for $name<'_> {}

            impl fmt::Debug for $name<'_> {
                fn fmt(&self, out: &mut fmt::Formatter<'_>) -> fmt::Result {
                    out.debug_struct(stringify!($name)).finish_non_exhaustive()
                }
            }
        )*
    };
}

iterators! {
    /// The libraries of a container.
    ///
    /// ```
    /// let bytes = pef::link("library Tools 1 0 -\nlibrary Sounds 1 0 weak\n")?;
    /// let names: Vec<_> = pef::Container::read(&bytes)?.libraries().map(|it| it.name).collect();
    /// assert_eq!(names, [b"Tools".as_slice(), b"Sounds"]);
    /// # Ok::<(), Box<dyn std::error::Error>>(())
    /// ```
    Libraries: pef_library, Library, |bytes, _, row| Library::of(bytes, row);
    /// The imports of a container, by their numbers.
    ///
    /// ```
    /// let bytes = pef::link("library Tools 1 0 -\nimport answer data strong\nimport start code weak\n")?;
    /// let weak: Vec<_> = pef::Container::read(&bytes)?.imports().filter(|it| it.weak).map(|it| it.number).collect();
    /// assert_eq!(weak, [1]);
    /// # Ok::<(), Box<dyn std::error::Error>>(())
    /// ```
    Imports: pef_import, Import, Import::of;
    /// The relocation headers of a container, by their numbers.
    ///
    /// ```
    /// let bytes = pef::link("section data data process 4 8\nfix data 4 section data\n")?;
    /// let sections: Vec<_> = pef::Container::read(&bytes)?.relocations().map(|it| it.section).collect();
    /// assert_eq!(sections, [0]);
    /// # Ok::<(), Box<dyn std::error::Error>>(())
    /// ```
    Relocations: pef_relocation, Relocation, Relocation::of;
    /// The exports of a container, by their numbers.
    ///
    /// ```
    /// use std::collections::HashMap;
    ///
    /// let bytes = pef::link("section data data process 4 8\nexport answer data data 4\n")?;
    /// let container = pef::Container::read(&bytes)?;
    /// let by_name: HashMap<_, _> = container.exports().map(|it| (it.name, it.value)).collect();
    /// assert!(by_name.contains_key(b"answer".as_slice()));
    /// # Ok::<(), Box<dyn std::error::Error>>(())
    /// ```
    Exports: pef_export, Export, Export::of;
}

/// All rows that a call reads, of which it is unknown how many there are.
pub(crate) fn all_rows<Row>(call: impl Fn(usize, usize) -> Result<Vec<Row>, Number>) -> Result<Vec<Row>, Number> {
    let (mut found, mut next) = (Vec::new(), FIRST);
    loop {
        let rows = call(found.len(), next)?;
        let count = rows.len();
        found.extend(rows);
        if count < next {
            return Ok(found);
        }
        next = (2 * next).min(MOST);
    }
}

pub(crate) fn findings(bytes: &[u8]) -> Result<Vec<sys::pef_finding>, Number> {
    let mut found = all_rows(|from, most| raw::findings(bytes, from, most))?;
    found.extend(all_rows(|from, most| raw::more_notes(bytes, from, most))?);
    Ok(found)
}
