//! Errors, and where they are.

use alloc::boxed::Box;
use core::fmt;

use crate::code::{calls_of_code, Code};
use crate::raw;

/// The parts, their numbers, the words for each, and whether there are several.
macro_rules! parts {
    ($($name:ident = $number:ident, $words:literal, $several:literal;)*) => {
        /// A kind of part of a container or a script that an error can be about.
        ///
        /// ```
        /// let mut bytes = pef::link("section data data process 4 4\nbytes data 0000002A\n")?;
        /// bytes.pop();
        /// let place = pef::Container::read(&bytes).unwrap_err().place().unwrap();
        /// assert_eq!((place.part, place.to_string()), (pef::Part::Section, "section 1 at 0x58".to_string()));
        /// # Ok::<(), Box<dyn std::error::Error>>(())
        /// ```
        #[derive(Clone, Copy, Debug, PartialEq, Eq, Hash)]
        #[non_exhaustive]
        #[allow(missing_docs)]
        pub enum Part {
            $($name,)*
            /// A number that this version of the crate doesn't know.
            Other(u32),
        }

        impl Part {
            fn from_number(number: u32) -> Self {
                match number {
                    $(pef_sys::$number => Self::$name,)*
                    _ => Self::Other(number),
                }
            }

            pub(crate) fn number(self) -> u32 {
                match self {
                    $(Self::$name => pef_sys::$number,)*
                    Self::Other(number) => number,
                }
            }

            fn words(self) -> (&'static str, bool) {
                match self {
                    $(Self::$name => ($words, $several),)*
                    Self::Other(_) => ("part of another kind", true),
                }
            }
        }
    };
}

parts! {
    // Part: written by tools/declarations from docs/codes.table
    ContainerHeader = PEF_CONTAINER_HEADER_PART, "container header", false;
    Section = PEF_SECTION_PART, "section", true;
    LoaderHeader = PEF_LOADER_HEADER_PART, "loader header", false;
    Library = PEF_LIBRARY_PART, "library", true;
    Import = PEF_IMPORT_PART, "import", true;
    MainEntry = PEF_MAIN_PART, "main entry point", false;
    InitEntry = PEF_INIT_PART, "initialization routine", false;
    TermEntry = PEF_TERM_PART, "termination routine", false;
    RelocationHeader = PEF_RELOCATION_PART, "relocation header", true;
    Export = PEF_EXPORT_PART, "export", true;
    PackedData = PEF_PACKED_DATA_PART, "packed data of section", true;
    Program = PEF_PROGRAM_PART, "program of relocation header", true;
    Line = PEF_LINE_PART, "line", true;
    // the end of what is written
}

/// Where an error is.
///
/// ```
/// let error = pef::Container::read(b"Joy!peffm68k, and then at least 40 bytes").unwrap_err();
/// let place = error.place().unwrap();
/// assert_eq!((place.part, place.field, place.offset), (pef::Part::ContainerHeader, 8, Some(8)));
/// ```
#[derive(Clone, Copy, Debug, PartialEq, Eq, Hash)]
pub struct Place {
    /// The kind of part.
    pub part: Part,
    /// Its number among those of its kind, from 0. Packed data has the number of its section, a program that of its relocation header, and
    /// a line counts from 1.
    pub row: usize,
    /// The offset of the field in the part; in packed data and in programs that of the instruction; in a line the number of the word.
    pub field: usize,
    /// Where that begins in the container or the script.
    pub offset: Option<usize>,
}

impl Place {
    /// None for what is nowhere.
    pub(crate) fn of(raw: pef_sys::pef_place) -> Option<Self> {
        (raw.part != pef_sys::PEF_NOWHERE).then(|| Self {
            part: Part::from_number(raw.part),
            row: raw.row,
            field: raw.field,
            offset: (raw.offset != pef_sys::PEF_NO_OFFSET).then_some(raw.offset),
        })
    }
}

impl fmt::Display for Place {
    /// Writes the part, its number, and the offset: `section 1 at 0x5C`.
    fn fmt(&self, out: &mut fmt::Formatter<'_>) -> fmt::Result {
        let (words, several) = self.part.words();
        out.write_str(words)?;
        if several {
            write!(out, " {}", self.row)?;
        }
        if self.part == Part::Line {
            write!(out, " word {}", self.field)?;
        }
        self.offset.map_or(Ok(()), |offset| write!(out, " at 0x{offset:X}"))
    }
}

/// An error, or another answer of the library that isn't success.
///
/// ```
/// let error = pef::Container::read(b"no container").unwrap_err();
/// assert_eq!((error.code(), error.number(), error.name()), (pef::Code::TooShort, 1, "TooShort"));
/// assert!(error.to_string().starts_with("1 TooShort"));
/// println!("{error}: {}", error.help());
/// ```
#[derive(Clone, Debug, PartialEq, Eq)]
pub struct Error {
    code: Code,
    place: Option<Place>,
    fragment: Option<Box<[u8]>>,
    library: Option<Box<[u8]>>,
    symbol: Option<Box<[u8]>>,
}

impl Error {
    pub(crate) fn new(number: u32) -> Self {
        Self { code: number.into(), place: None, fragment: None, library: None, symbol: None }
    }

    /// The error of a container, with its place.
    pub(crate) fn of_container(number: u32, bytes: &[u8]) -> Self {
        Self { place: raw::container_place(bytes).and_then(Place::of), ..Self::new(number) }
    }
    pub(crate) fn at(number: u32, place: Option<Place>) -> Self {
        Self { place, ..Self::new(number) }
    }

    #[cfg(feature = "std")]
    pub(crate) fn of_preparation(number: u32, names: &raw::Names<'_>, place: pef_sys::pef_place) -> Self {
        let owned = |name: &[u8]| (!name.is_empty()).then(|| name.into());
        let (fragment, library, symbol) = (owned(names.fragment), owned(names.library), owned(names.symbol));
        Self { code: number.into(), place: Place::of(place), fragment, library, symbol }
    }

    calls_of_code!();

    /// Where it is, if it is somewhere: in the container that was read, or in that of the [fragment](Self::fragment).
    pub fn place(&self) -> Option<Place> {
        self.place
    }

    /// The fragment that isn't prepared.
    pub fn fragment(&self) -> Option<&[u8]> {
        self.fragment.as_deref()
    }

    /// The library that the fragment needs.
    pub fn library(&self) -> Option<&[u8]> {
        self.library.as_deref()
    }

    /// The symbol that the fragment needs.
    pub fn symbol(&self) -> Option<&[u8]> {
        self.symbol.as_deref()
    }
}

impl fmt::Display for Error {
    /// Writes one line: the number, the name, the names that belong to it, and the place.
    fn fmt(&self, out: &mut fmt::Formatter<'_>) -> fmt::Result {
        write!(out, "{}", self.code)?;
        for (word, name) in [("fragment", &self.fragment), ("library", &self.library), ("symbol", &self.symbol)] {
            if let Some(name) = name {
                write!(out, " {word} {}", name.escape_ascii())?;
            }
        }
        self.place.map_or(Ok(()), |place| write!(out, " in {place}"))
    }
}

#[cfg(feature = "std")]
impl std::error::Error for Error {}

#[cfg(feature = "std")]
impl From<Error> for std::io::Error {
    fn from(error: Error) -> Self {
        let kind = if error.code == Code::OutOfMemory { std::io::ErrorKind::OutOfMemory } else { std::io::ErrorKind::InvalidData };
        Self::new(kind, error)
    }
}
