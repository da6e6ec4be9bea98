//! Containers that are sound.

use alloc::vec::{self, Vec};
use core::fmt;

use pef_sys as sys;

use crate::error::{Error, Part, Place};
use crate::inspect::{findings, Finding};
use crate::raw;
use crate::rows::{Exports, Imports, Libraries, Relocations};
use crate::tables::{Count, Entry, Export, Fixup, Header, Import, Section};

/// A container, read from its bytes. Nothing of it is copied: names and raw bytes are parts of what was read.
///
/// ```
/// let bytes = pef::link("library Tools 1 0 -\nimport answer data strong\nsection data data process 4 4\nfix data 0 import answer\n")?;
/// let container = pef::Container::read(&bytes)?;
/// let libraries: Vec<_> = container.libraries().collect();
/// for import in container.imports() {
///     let library = &libraries[import.library.unwrap()];
///     assert_eq!((library.name, import.name), (&b"Tools"[..], &b"answer"[..]));
/// }
/// assert_eq!(container.sections().filter(|it| it.instantiated).count(), 1);
/// # Ok::<(), Box<dyn std::error::Error>>(())
/// ```
#[derive(Clone, Copy)]
pub struct Container<'a> {
    bytes: &'a [u8],
    header: Header,
    loader: sys::pef_loader,
}

impl<'a> Container<'a> {
    /// Reads a container, with its loader section.
    ///
    /// # Errors
    ///
    /// 1 to 20: the first error, with its place. [`findings`](crate::findings) has all of them, and [`Damaged`](crate::Damaged) what can be
    /// read all the same.
    pub fn read(bytes: &'a [u8]) -> Result<Self, Error> {
        let error = |number| Error::of_container(number, bytes);
        let header = raw::header(bytes).map_err(error)?;
        let loader = raw::loader(bytes).map_err(error)?;
        Ok(Self { bytes, header: Header::of(header), loader })
    }

    /// The bytes that were read.
    pub fn bytes(&self) -> &'a [u8] {
        self.bytes
    }

    /// The header.
    pub fn header(&self) -> Header {
        self.header
    }

    /// All sections, by their numbers.
    pub fn sections(&self) -> Sections<'a> {
        Sections::new(self.bytes, self.header, false)
    }

    /// The section with a number.
    pub fn section(&self, number: usize) -> Option<Section<'a>> {
        self.sections().nth(number)
    }

    /// The libraries that the fragment imports from.
    pub fn libraries(&self) -> Libraries<'a> {
        Libraries::new(self.bytes, Some(self.loader.library_count as usize), raw::libraries)
    }

    /// The imported symbols, by their numbers.
    pub fn imports(&self) -> Imports<'a> {
        Imports::new(self.bytes, Some(self.loader.import_count as usize), raw::imports)
    }

    /// The relocation headers, by their numbers.
    pub fn relocations(&self) -> Relocations<'a> {
        Relocations::new(self.bytes, Some(self.loader.relocation_count as usize), raw::relocations)
    }

    /// The exported symbols, in the order of the container's keys.
    pub fn exports(&self) -> Exports<'a> {
        Exports::new(self.bytes, Some(self.loader.export_count as usize), raw::exports)
    }

    /// The first export with a name. Names are compared byte by byte.
    ///
    /// Each call reads the loader section anew. To look up many names, make a map of the [exports](Self::exports).
    pub fn find<N: AsRef<[u8]> + ?Sized>(&self, name: &N) -> Option<Export<'a>> {
        let (number, row) = raw::export_named(self.bytes, name.as_ref()).ok()?;
        Some(Export::of(self.bytes, number, &row))
    }

    /// The first import with a name. Names are compared byte by byte.
    pub fn find_import<N: AsRef<[u8]> + ?Sized>(&self, name: &N) -> Option<Import<'a>> {
        let (number, row) = raw::import_named(self.bytes, name.as_ref()).ok()?;
        Some(Import::of(self.bytes, number, &row))
    }

    /// The main entry point.
    pub fn main(&self) -> Option<Entry> {
        Entry::of(self.loader.main_section, self.loader.main_offset)
    }

    /// The initialization routine.
    pub fn init(&self) -> Option<Entry> {
        Entry::of(self.loader.init_section, self.loader.init_offset)
    }

    /// The termination routine.
    pub fn term(&self) -> Option<Entry> {
        Entry::of(self.loader.term_section, self.loader.term_offset)
    }

    /// What is wrong in what [`read`](Self::read) doesn't look at, such as programs and packed bytes, and what is odd: see
    /// [`findings`](crate::findings).
    ///
    /// # Errors
    ///
    /// 99.
    pub fn findings(&self) -> Result<Vec<Finding>, Error> {
        findings(self.bytes)
    }
}

impl fmt::Debug for Container<'_> {
    fn fmt(&self, out: &mut fmt::Formatter<'_>) -> fmt::Result {
        out.debug_struct("Container")
            .field("bytes", &Count(self.bytes))
            .field("header", &self.header)
            .field("libraries", &self.loader.library_count)
            .field("imports", &self.loader.import_count)
            .field("relocations", &self.loader.relocation_count)
            .field("exports", &self.loader.export_count)
            .finish()
    }
}

/// The sections of a container, by their numbers.
///
/// ```
/// let bytes = pef::link("section code code global 4 4\nsection data data process 4 8\n")?;
/// let container = pef::Container::read(&bytes)?;
/// let sizes: Vec<_> = container.sections().filter(|it| it.instantiated).map(|it| it.total_size).collect();
/// assert_eq!(sizes, [4, 8]);
/// # Ok::<(), Box<dyn std::error::Error>>(())
/// ```
#[derive(Clone)]
pub struct Sections<'a> {
    bytes: &'a [u8],
    next: usize,
    header: Header,
    damaged: bool,
}

impl<'a> Sections<'a> {
    pub(crate) fn new(bytes: &'a [u8], header: Header, damaged: bool) -> Self {
        Self { bytes, next: 0, header, damaged }
    }

    fn read(&self, number: usize) -> Option<Section<'a>> {
        let (row, name) = if self.damaged {
            (raw::partial_section(self.bytes, number), raw::partial_section_name(self.bytes, number))
        } else {
            (raw::section(self.bytes, number), raw::section_name(self.bytes, number))
        };
        let ((row, raw), name) = (row.ok()?, name.ok());
        Some(Section::new(number, name, row, raw, number < usize::from(self.header.instantiated_section_count)))
    }
}

impl<'a> Iterator for Sections<'a> {
    type Item = Section<'a>;

    fn next(&mut self) -> Option<Self::Item> {
        while self.next < usize::from(self.header.section_count) {
            self.next += 1;
            if let Some(section) = self.read(self.next - 1) {
                return Some(section);
            }
        }
        None
    }

    fn nth(&mut self, count: usize) -> Option<Self::Item> {
        // those of a damaged container may be missing
        if !self.damaged {
            self.next = self.next.saturating_add(count);
            return self.next();
        }
        for _ in 0..count {
            self.next()?;
        }
        self.next()
    }

    fn size_hint(&self) -> (usize, Option<usize>) {
        let left = usize::from(self.header.section_count).saturating_sub(self.next);
        (if self.damaged { 0 } else { left }, Some(left))
    }
}

impl core::iter::FusedIterator for Sections<'_> {}

impl fmt::Debug for Sections<'_> {
    fn fmt(&self, out: &mut fmt::Formatter<'_>) -> fmt::Result {
        out.debug_struct("Sections").field("next", &self.next).finish_non_exhaustive()
    }
}

/// The additions of a relocation program. After an error it ends.
///
/// ```
/// let bytes = pef::link("section data data process 4 8\nfix data 0 section data\nfix data 4 section data\n")?;
/// let relocation = pef::Container::read(&bytes)?.relocations().next().unwrap();
/// for fixup in relocation.fixups() {
///     let fixup = fixup?;
///     println!("at {:X}: {:?}", fixup.offset, fixup.target);
/// }
/// assert_eq!(relocation.fixups().count(), 2);
/// # Ok::<(), Box<dyn std::error::Error>>(())
/// ```
pub struct Fixups<'a> {
    bytes: &'a [u8],
    header: usize,
    read: vec::IntoIter<sys::pef_fixup>,
    /// How many were read, and how many are read next; 0 at the end.
    count: usize,
    next: usize,
}

/// How many additions are read at once. Each call runs the program from its start, so later ones read more.
const FIRST: usize = 1 << 10;
const MOST: usize = 1 << 18;

impl<'a> Fixups<'a> {
    pub(crate) fn new(bytes: &'a [u8], header: usize) -> Self {
        Self { bytes, header, read: Vec::new().into_iter(), count: 0, next: FIRST }
    }

    fn read_more(&mut self) -> Result<(), Error> {
        let asked = core::mem::replace(&mut self.next, 0);
        let rows = raw::fixups(self.bytes, self.header, self.count, asked).map_err(|number| self.error(number))?;
        self.count += rows.len();
        if rows.len() == asked {
            self.next = (2 * asked).min(MOST);
        }
        self.read = rows.into_iter();
        Ok(())
    }

    /// An error, with its place if it is the first of the container.
    fn error(&self, number: u32) -> Error {
        let place = raw::container_place(self.bytes).and_then(Place::of);
        Error::at(number, place.filter(|it| it.part == Part::Program && it.row == self.header))
    }
}

impl Iterator for Fixups<'_> {
    type Item = Result<Fixup, Error>;

    fn next(&mut self) -> Option<Self::Item> {
        if self.read.len() == 0 && self.next > 0 {
            if let Err(error) = self.read_more() {
                return Some(Err(error));
            }
        }
        self.read.next().map(|row| Ok(Fixup::of(&row)))
    }

    fn size_hint(&self) -> (usize, Option<usize>) {
        (self.read.len(), if self.next == 0 { Some(self.read.len()) } else { None })
    }
}

impl core::iter::FusedIterator for Fixups<'_> {}

impl fmt::Debug for Fixups<'_> {
    fn fmt(&self, out: &mut fmt::Formatter<'_>) -> fmt::Result {
        out.debug_struct("Fixups").field("header", &self.header).finish_non_exhaustive()
    }
}
