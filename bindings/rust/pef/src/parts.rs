//! Reports in parts.

use core::fmt;
use core::ops::Range;

use pef_sys as sys;

use crate::error::{Error, Part};
use crate::inspect::Report;
use crate::raw;

impl Report {
    /// Makes the report on a file in parts: what is before its containers, each container, and what is after them. One after the other they
    /// are the text of [`of_file`](Self::of_file), and only one of them is in memory.
    ///
    /// ```
    /// # #[cfg(feature = "std")] {
    /// use std::io::Read;
    ///
    /// let (mut whole, mut text) = (String::new(), String::new());
    /// pef::Report::of_file("a file", b"no container")?.read_to_string(&mut whole)?;
    /// for part in pef::Report::parts_of_file("a file", b"no container") {
    ///     part?.read_to_string(&mut text)?;
    /// }
    /// assert_eq!(text, whole);
    /// # }
    /// # Ok::<(), Box<dyn std::error::Error>>(())
    /// ```
    pub fn parts_of_file<'a, P: AsRef<[u8]> + ?Sized>(path: &'a P, file: &'a [u8]) -> ReportParts<'a> {
        ReportParts { file, next: Next::Head(path.as_ref()) }
    }

    /// Finds the containers of a file, each of which has a report of its own.
    pub fn containers_of_file(file: &[u8]) -> ReportContainers<'_> {
        ReportContainers { file, next: raw::first_container(file).ok() }
    }
}

/// The parts of the report on a file: see [`Report::parts_of_file`]. After an error, which is 99, it ends.
pub struct ReportParts<'a> {
    file: &'a [u8],
    next: Next<'a>,
}

#[derive(Clone, Copy)]
enum Next<'a> {
    /// What is before the containers of the file with this path.
    Head(&'a [u8]),
    Container(sys::pef_found_container),
    End(sys::pef_found_container),
    Nothing,
}

impl Next<'_> {
    fn of(found: Result<sys::pef_found_container, sys::pef_found_container>) -> Self {
        found.map_or_else(Self::End, Self::Container)
    }
}

impl Iterator for ReportParts<'_> {
    type Item = Result<Report, Error>;

    fn next(&mut self) -> Option<Self::Item> {
        let (made, next) = match self.next {
            Next::Head(path) => (raw::Report::head(path, self.file), Next::of(raw::first_container(self.file))),
            Next::Container(found) => (raw::Report::found(self.file, &found), Next::of(raw::next_container(self.file, found))),
            Next::End(end) => (raw::Report::end(self.file, &end), Next::Nothing),
            Next::Nothing => return None,
        };
        self.next = if made.is_ok() { next } else { Next::Nothing };
        Some(made.map(Report).map_err(Error::new))
    }
}

impl core::iter::FusedIterator for ReportParts<'_> {}

impl fmt::Debug for ReportParts<'_> {
    fn fmt(&self, out: &mut fmt::Formatter<'_>) -> fmt::Result {
        out.debug_struct("ReportParts").finish_non_exhaustive()
    }
}

/// The containers of a file, in their order: see [`Report::containers_of_file`].
pub struct ReportContainers<'a> {
    file: &'a [u8],
    next: Option<sys::pef_found_container>,
}

impl<'a> Iterator for ReportContainers<'a> {
    type Item = ReportContainer<'a>;

    fn next(&mut self) -> Option<Self::Item> {
        let found = self.next?;
        self.next = raw::next_container(self.file, found).ok();
        Some(ReportContainer { file: self.file, found })
    }
}

impl core::iter::FusedIterator for ReportContainers<'_> {}

impl fmt::Debug for ReportContainers<'_> {
    fn fmt(&self, out: &mut fmt::Formatter<'_>) -> fmt::Result {
        out.debug_struct("ReportContainers").finish_non_exhaustive()
    }
}

/// A container of a file, and reports on it, for a viewer that shows a few rows first. A report has no bytes if the container isn't
/// inspected, because with those before it that would cost too much.
///
/// ```
/// # #[cfg(feature = "std")] {
/// use std::io::Read;
///
/// let bytes = pef::link("section data data process 4 8\nexport answer data data 0\nexport other data data 4\n")?;
/// for container in pef::Report::containers_of_file(&bytes) {
///     let (mut first, mut others) = (String::new(), String::new());
///     container.excerpt(1)?.read_to_string(&mut first)?;
///     container.rows(pef::Part::Export, 1..2)?.read_to_string(&mut others)?;
///     println!("{}: {first} and {others}", container.offset());
/// }
/// # }
/// # Ok::<(), Box<dyn std::error::Error>>(())
/// ```
#[derive(Clone, Copy)]
pub struct ReportContainer<'a> {
    file: &'a [u8],
    found: sys::pef_found_container,
}

impl<'a> ReportContainer<'a> {
    /// Its number in the file, from 0.
    pub fn number(&self) -> u64 {
        self.found.number
    }

    /// Where it begins in the file.
    pub fn offset(&self) -> usize {
        self.found.offset
    }

    /// The bytes that it can have: those up to the end of its member, its resource or its fork, or of the file if it begins in no fork.
    pub fn bytes(&self) -> &'a [u8] {
        let end = self.found.offset.saturating_add(self.found.length);
        self.file.get(self.found.offset..end).unwrap_or(&[])
    }

    /// Makes its object as the report on the file has it, after a comma unless it is the first.
    ///
    /// # Errors
    ///
    /// 99.
    pub fn report(&self) -> Result<Report, Error> {
        raw::Report::found(self.file, &self.found).map(Report).map_err(Error::new)
    }

    /// Makes the beginning of its object, as an object: the first rows of each kind, `most` or fewer, without their instructions, and the
    /// first `most` of the errors and notes.
    ///
    /// # Errors
    ///
    /// 99.
    pub fn excerpt(&self, most: u32) -> Result<Report, Error> {
        raw::Report::excerpt(self.file, &self.found, most).map(Report).map_err(Error::new)
    }

    /// Makes the objects of rows, or of those that there are: of sections, libraries, imports, relocation headers or exports. They are what
    /// the object has in the list of their kind, after a comma unless the first is row 0.
    ///
    /// # Errors
    ///
    /// 201 if a container has no rows of this kind, and 99.
    pub fn rows(&self, part: Part, rows: Range<u32>) -> Result<Report, Error> {
        let count = rows.end.saturating_sub(rows.start);
        let range = sys::pef_row_range { offset: self.found.offset, part: part.number(), from: rows.start, count };
        raw::Report::rows(self.file, &range).map(Report).map_err(Error::new)
    }
}

impl fmt::Debug for ReportContainer<'_> {
    fn fmt(&self, out: &mut fmt::Formatter<'_>) -> fmt::Result {
        out.debug_struct("ReportContainer").field("number", &self.number()).field("offset", &self.offset()).finish_non_exhaustive()
    }
}
