//! Containers that may be damaged.

use alloc::vec::Vec;
use core::fmt;

use pef_sys as sys;

use crate::container::Sections;
use crate::error::Error;
use crate::inspect::{findings, Finding};
use crate::raw;
use crate::rows::{Exports, Imports, Libraries, Relocations};
use crate::tables::{Count, Entry, Export, Header, Section};

/// A container that may be damaged, as far as it can be read. An error in one part hides no other part.
///
/// What is missing is left out: sections whose headers aren't in the bytes, rows that aren't in the loader section, and all rows if that has
/// no header. Raw bytes of sections are those that there are. A name that can't be read is empty, and so are instructions that extend past
/// the loader section.
///
/// ```
/// let mut bytes = pef::link("section data data process 4 4\nbytes data 0000002A\n")?;
/// bytes.pop();
/// assert!(pef::Container::read(&bytes).is_err());
/// let container = pef::Damaged::read(&bytes)?;
/// assert_eq!(container.sections().count(), 2);
/// assert_eq!(container.findings()?[0].code, pef::Code::SectionOutside);
/// # Ok::<(), Box<dyn std::error::Error>>(())
/// ```
#[derive(Clone, Copy)]
pub struct Damaged<'a> {
    bytes: &'a [u8],
    header: Header,
    loader: Option<sys::pef_loader>,
}

impl<'a> Damaged<'a> {
    /// Reads what can be read of a container.
    ///
    /// # Errors
    ///
    /// 1 or 2: nothing can be read of it.
    pub fn read(bytes: &'a [u8]) -> Result<Self, Error> {
        let header = raw::partial_header(bytes).map_err(|number| Error::of_container(number, bytes))?;
        Ok(Self { bytes, header: Header::of(header), loader: raw::partial_loader(bytes).ok() })
    }

    /// The bytes that were read.
    pub fn bytes(&self) -> &'a [u8] {
        self.bytes
    }

    /// The header.
    pub fn header(&self) -> Header {
        self.header
    }

    /// The sections whose headers are there.
    pub fn sections(&self) -> Sections<'a> {
        Sections::new(self.bytes, self.header, true)
    }

    /// The section with a number, if its header is there.
    pub fn section(&self, number: usize) -> Option<Section<'a>> {
        self.sections().find(|it| it.number == number)
    }

    /// The libraries that are there.
    pub fn libraries(&self) -> Libraries<'a> {
        Libraries::new(self.bytes, self.rows(), raw::partial_libraries)
    }

    /// The imported symbols that are there, by their numbers.
    pub fn imports(&self) -> Imports<'a> {
        Imports::new(self.bytes, self.rows(), raw::partial_imports)
    }

    /// The relocation headers that are there, by their numbers.
    pub fn relocations(&self) -> Relocations<'a> {
        Relocations::new(self.bytes, self.rows(), raw::partial_relocations)
    }

    /// The exported symbols that are there, in the order of the container's keys.
    pub fn exports(&self) -> Exports<'a> {
        Exports::new(self.bytes, self.rows(), raw::partial_exports)
    }

    /// How many rows a table has: none without a loader section, and else an unknown number.
    fn rows(&self) -> Option<usize> {
        if self.loader.is_some() {
            None
        } else {
            Some(0)
        }
    }

    /// The first export with a name, among those that are there.
    pub fn find<N: AsRef<[u8]> + ?Sized>(&self, name: &N) -> Option<Export<'a>> {
        self.exports().find(|it| it.name == name.as_ref())
    }

    /// The main entry point.
    pub fn main(&self) -> Option<Entry> {
        self.loader.and_then(|it| Entry::of(it.main_section, it.main_offset))
    }

    /// The initialization routine.
    pub fn init(&self) -> Option<Entry> {
        self.loader.and_then(|it| Entry::of(it.init_section, it.init_offset))
    }

    /// The termination routine.
    pub fn term(&self) -> Option<Entry> {
        self.loader.and_then(|it| Entry::of(it.term_section, it.term_offset))
    }

    /// What is wrong with it, and what is odd: see [`findings`](crate::findings).
    ///
    /// # Errors
    ///
    /// 99.
    pub fn findings(&self) -> Result<Vec<Finding>, Error> {
        findings(self.bytes)
    }
}

impl fmt::Debug for Damaged<'_> {
    fn fmt(&self, out: &mut fmt::Formatter<'_>) -> fmt::Result {
        out.debug_struct("Damaged").field("bytes", &Count(self.bytes)).field("header", &self.header).finish_non_exhaustive()
    }
}
