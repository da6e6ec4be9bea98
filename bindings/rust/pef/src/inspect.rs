//! All that is wrong with a container, and what is odd.

use alloc::vec::Vec;
use core::fmt;

use pef_sys as sys;

use crate::code::Code;
use crate::error::{Error, Place};
use crate::tables::codes;
use crate::{raw, rows};

codes! {
    /// What the detail of an error or a note is.
    ///
    /// ```
    /// assert_eq!(pef::DetailKind::Length.text(), Some("number of bytes"));
    /// ```
    DetailKind, text {
        // DetailKind: written by tools/declarations from docs/codes.table
        None = PEF_DETAIL_NONE "none" "nothing",
        Word = PEF_DETAIL_WORD "word" "offset of a word in its section",
        Length = PEF_DETAIL_LENGTH "length" "number of bytes",
        Sections = PEF_DETAIL_SECTIONS "sections" "number of sections",
        // the end of what is written
    }
}

/// An error of a container, or a note on it: something odd that breaks no rule.
///
/// ```
/// for finding in pef::findings(b"no container")? {
///     let word = if finding.is_error { "error" } else { "note" };
///     println!("{word} {finding}: {}", finding.help());
///     assert_eq!(finding.code, pef::Code::TooShort);
/// }
/// # Ok::<(), Box<dyn std::error::Error>>(())
/// ```
#[derive(Clone, Copy, Debug, PartialEq, Eq)]
#[non_exhaustive]
pub struct Finding {
    /// What it is.
    pub code: Code,
    /// Whether it is an error, and no note.
    pub is_error: bool,
    /// Where it is.
    pub place: Option<Place>,
    /// The number that it has beside its place, if it has one.
    pub detail: Option<u64>,
    /// What that number is.
    pub detail_kind: DetailKind,
}

impl Finding {
    fn of(row: &sys::pef_finding) -> Self {
        let kind = row.detail_kind.into();
        let detail = (kind != DetailKind::None).then_some(row.detail);
        Self { code: row.number.into(), is_error: row.is_error, place: Place::of(row.place), detail, detail_kind: kind }
    }

    /// One or two sentences: what it means, and what to do.
    pub fn help(&self) -> &'static str {
        self.code.help()
    }
}

impl fmt::Display for Finding {
    /// Writes the number, the name and the place.
    fn fmt(&self, out: &mut fmt::Formatter<'_>) -> fmt::Result {
        write!(out, "{}", self.code)?;
        self.place.map_or(Ok(()), |place| write!(out, " in {place}"))
    }
}

/// Finds all errors of a container, and then the notes on it.
///
/// Packed data is expanded and relocation programs are run, without keeping what they make. So a container without errors is refused by no
/// preparation, as far as its own bytes are concerned. Errors come in the order of [`Listing`](crate::Listing): what it reports is the first here.
/// A preparation has an order of its own, in which packed data comes before programs. Bytes that are no container have one error.
///
/// # Errors
///
/// 99.
///
/// ```
/// let mut bytes = pef::link("section data data process 4 4\nbytes data 0000002A\n")?;
/// assert!(pef::findings(&bytes)?.is_empty());
/// bytes[15] = 2;
/// let found = pef::findings(&bytes)?;
/// assert_eq!(found[0].to_string(), "4 BadFormatVersion in container header at 0xC");
/// # Ok::<(), Box<dyn std::error::Error>>(())
/// ```
pub fn findings(bytes: &[u8]) -> Result<Vec<Finding>, Error> {
    let found = rows::findings(bytes).map_err(Error::new)?;
    Ok(found.iter().map(Finding::of).collect())
}

/// The text of JSON that `pef inspect --json` prints of a file: its forks, fragments and containers, with all errors and notes. It is read
/// by [`std::io::Read`], or by [`read_part`](Self::read_part).
///
/// `docs/INSPECT.md` of the project has its members. The whole text is in memory until the report is dropped.
///
/// ```
/// # #[cfg(feature = "std")] {
/// use std::io::Read;
///
/// let mut text = String::new();
/// pef::Report::of_file("a file", b"no container")?.read_to_string(&mut text)?;
/// assert!(text.starts_with(r#"{"file":"a file""#) && text.ends_with("}\n"));
/// # }
/// # Ok::<(), Box<dyn std::error::Error>>(())
/// ```
pub struct Report(pub(crate) raw::Report);

impl Report {
    /// Makes the report on a file, whatever it is. `path` is what the report calls the file. Neither is kept.
    ///
    /// # Errors
    ///
    /// 99.
    pub fn of_file<P: AsRef<[u8]> + ?Sized>(path: &P, file: &[u8]) -> Result<Self, Error> {
        raw::Report::of_file(path.as_ref(), file).map(Self).map_err(Error::new)
    }

    /// Makes the object that such a report has for a container, of bytes that are looked at as a container whatever they are. The offsets
    /// are those in these bytes, and there is no end of a line. The bytes aren't kept.
    ///
    /// # Errors
    ///
    /// 99.
    pub fn of_container(bytes: &[u8]) -> Result<Self, Error> {
        raw::Report::of_container(bytes).map(Self).map_err(Error::new)
    }

    /// Writes the next bytes to the front of a buffer, as many as fit, and returns how many these are: fewer than fit only at the end.
    ///
    /// # Errors
    ///
    /// 99, and then the next call goes on where this one began.
    pub fn read_part(&mut self, buffer: &mut [u8]) -> Result<usize, Error> {
        self.0.next(buffer).map_err(Error::new)
    }
}

#[cfg(feature = "std")]
impl std::io::Read for Report {
    fn read(&mut self, buffer: &mut [u8]) -> std::io::Result<usize> {
        Ok(self.read_part(buffer)?)
    }
}

impl fmt::Debug for Report {
    fn fmt(&self, out: &mut fmt::Formatter<'_>) -> fmt::Result {
        out.debug_struct("Report").finish_non_exhaustive()
    }
}
