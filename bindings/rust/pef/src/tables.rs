//! What a container has, row by row.

use alloc::borrow::Cow;
use core::fmt;
use core::ops::Range;

use pef_sys as sys;

use crate::container::Fixups;
use crate::error::Error;
use crate::raw;

macro_rules! codes {
    ($(#[$doc:meta])* $kind:ident, $shown:ident { $($name:ident = $number:ident $word:literal $text:literal,)* }) => {
        $(#[$doc])*
        #[derive(Clone, Copy, Debug, PartialEq, Eq, Hash)]
        #[non_exhaustive]
        #[allow(missing_docs)]
        pub enum $kind {
            $($name,)*
            /// A number that isn't known.
            Other(u8),
        }

        impl $kind {
            /// The number of the code.
            pub fn number(self) -> u8 {
                match self {
                    $(Self::$name => sys::$number,)*
                    Self::Other(number) => number,
                }
            }
        }

        impl From<u8> for $kind {
            fn from(number: u8) -> Self {
                match number {
                    $(sys::$number => Self::$name,)*
                    _ => Self::Other(number),
                }
            }
        }

        impl $kind {
            /// The word that scripts and reports have for it, if the number is known.
            pub fn word(self) -> Option<&'static str> {
                match self {
                    $(Self::$name => Some($word),)*
                    Self::Other(_) => None,
                }
            }

            /// What it is, for people, if the number is known.
            pub fn text(self) -> Option<&'static str> {
                match self {
                    $(Self::$name => Some($text),)*
                    Self::Other(_) => None,
                }
            }
        }

        impl fmt::Display for $kind {
            #[doc = concat!("Writes the ", stringify!($shown), ", or the number.")]
            fn fmt(&self, out: &mut fmt::Formatter<'_>) -> fmt::Result {
                match self.$shown() {
                    Some(shown) => out.pad(shown),
                    None => write!(out, "{}", self.number()),
                }
            }
        }
    };
}
pub(crate) use codes;

codes! {
    /// What a section holds.
    ///
    /// ```
    /// assert_eq!(pef::SectionKind::from(2), pef::SectionKind::Pattern);
    /// assert_eq!(pef::SectionKind::Pattern.to_string(), "pattern");
    /// assert_eq!(pef::SectionKind::Pattern.text(), Some("pattern-initialized data"));
    /// ```
    SectionKind, word {
        // SectionKind: written by tools/declarations from docs/codes.table
        Code = PEF_KIND_CODE "code" "code",
        Data = PEF_KIND_DATA "data" "unpacked data",
        Pattern = PEF_KIND_PACKED "pattern" "pattern-initialized data",
        Constant = PEF_KIND_CONSTANT "const" "constant",
        Loader = PEF_KIND_LOADER "loader" "loader",
        Debug = PEF_KIND_DEBUG "debug" "debug",
        ExecutableData = PEF_KIND_EXECUTABLE_DATA "exec" "executable data",
        Exception = PEF_KIND_EXCEPTION "exception" "exception",
        Traceback = PEF_KIND_TRACEBACK "traceback" "traceback",
        // the end of what is written
    }
}

codes! {
    /// How instances of a section are shared.
    ///
    /// ```
    /// assert_eq!(pef::Share::from(4), pef::Share::Global);
    /// ```
    Share, word {
        // Share: written by tools/declarations from docs/codes.table
        Process = PEF_SHARE_PROCESS "process" "process",
        Global = PEF_SHARE_GLOBAL "global" "global",
        Protected = PEF_SHARE_PROTECTED "protected" "protected",
        // the end of what is written
    }
}

codes! {
    /// What a symbol names.
    ///
    /// ```
    /// assert_eq!(pef::SymbolClass::from(2), pef::SymbolClass::TransitionVector);
    /// ```
    SymbolClass, word {
        // SymbolClass: written by tools/declarations from docs/codes.table
        Code = PEF_CLASS_CODE "code" "code",
        Data = PEF_CLASS_DATA "data" "data",
        TransitionVector = PEF_CLASS_TVECTOR "tvector" "transition vector",
        Toc = PEF_CLASS_TOC "toc" "TOC",
        Glue = PEF_CLASS_GLUE "glue" "glue",
        // the end of what is written
    }
}

/// Bytes as text that can be read, for Debug.
pub(crate) struct Text<'a>(pub(crate) &'a [u8]);

impl fmt::Debug for Text<'_> {
    fn fmt(&self, out: &mut fmt::Formatter<'_>) -> fmt::Result {
        write!(out, "b\"{}\"", self.0.escape_ascii())
    }
}

/// The number of bytes, for Debug.
pub(crate) struct Count<'a>(pub(crate) &'a [u8]);

impl fmt::Debug for Count<'_> {
    fn fmt(&self, out: &mut fmt::Formatter<'_>) -> fmt::Result {
        write!(out, "{} bytes", self.0.len())
    }
}

/// A container's header.
///
/// ```
/// let bytes = pef::link("versions 3 2 1\n")?;
/// let header = pef::Container::read(&bytes)?.header();
/// assert_eq!((header.current_version, header.old_def_version, header.old_imp_version), (3, 2, 1));
/// # Ok::<(), Box<dyn std::error::Error>>(())
/// ```
#[derive(Clone, Copy, Debug, PartialEq, Eq)]
#[non_exhaustive]
pub struct Header {
    /// Seconds since the first of January 1904.
    pub date: u32,
    /// The version of this fragment.
    pub current_version: u32,
    /// The oldest version of a definition library that fits.
    pub old_def_version: u32,
    /// The oldest version of an implementation library that fits.
    pub old_imp_version: u32,
    /// How many sections there are.
    pub section_count: u16,
    /// How many of them are instantiated in memory: the first ones.
    pub instantiated_section_count: u16,
    /// Four characters: `pwpc`, or in a container that [`Damaged`](crate::Damaged) reads also `m68k` or any other.
    pub architecture: [u8; 4],
}

impl Header {
    pub(crate) fn of(row: sys::pef_header) -> Self {
        Self {
            date: row.date_time_stamp,
            current_version: row.current_version,
            old_def_version: row.old_def_version,
            old_imp_version: row.old_imp_version,
            section_count: row.section_count,
            instantiated_section_count: row.instantiated_section_count,
            architecture: row.architecture.to_be_bytes(),
        }
    }
}

/// A section's header and raw bytes.
///
/// ```
/// let bytes = pef::link("section data data process 4 8\nbytes data 0000002A\n")?;
/// let section = pef::Container::read(&bytes)?.section(0).unwrap();
/// assert_eq!((section.kind, section.total_size), (pef::SectionKind::Data, 8));
/// assert_eq!(*section.expand()?, [0, 0, 0, 42]);
/// # Ok::<(), Box<dyn std::error::Error>>(())
/// ```
#[derive(Clone, Copy, PartialEq, Eq)]
#[non_exhaustive]
pub struct Section<'a> {
    /// Its number.
    pub number: usize,
    /// Its name, if it has one.
    pub name: Option<&'a [u8]>,
    /// What it holds.
    pub kind: SectionKind,
    /// How its instances are shared.
    pub share: Share,
    /// The exponent of two of its alignment in memory.
    pub alignment: u8,
    /// The address at which it was linked.
    pub default_address: u32,
    /// Its size in memory.
    pub total_size: u32,
    /// The size of its image: zeros follow in memory.
    pub unpacked_size: u32,
    /// Where its raw bytes begin in the container.
    pub container_offset: u32,
    /// Its raw bytes. In a damaged container those that there are.
    pub raw: &'a [u8],
    /// Whether it is instantiated in memory.
    pub instantiated: bool,
}

impl<'a> Section<'a> {
    pub(crate) fn new(number: usize, name: Option<&'a [u8]>, row: sys::pef_section, raw: &'a [u8], instantiated: bool) -> Self {
        Self {
            number,
            name,
            kind: row.kind.into(),
            share: row.share.into(),
            alignment: row.alignment,
            default_address: row.default_address,
            total_size: row.total_size,
            unpacked_size: row.unpacked_size,
            container_offset: row.container_offset,
            raw,
            instantiated,
        }
    }

    /// The image before it is relocated: the raw bytes, or what packed ones expand to.
    ///
    /// # Errors
    ///
    /// 21 to 25 if packed bytes are damaged, and 99.
    pub fn expand(&self) -> Result<Cow<'a, [u8]>, Error> {
        if self.kind != SectionKind::Pattern {
            return Ok(Cow::Borrowed(self.unpacked()));
        }
        let length = usize::try_from(self.unpacked_size).map_err(|_| Error::new(sys::PEF_OUT_OF_MEMORY))?;
        raw::expand(self.raw, length).map(Cow::Owned).map_err(Error::new)
    }

    /// Writes the image to the front of a buffer, and returns its size.
    ///
    /// # Errors
    ///
    /// 200 if the buffer is too small; then it is unchanged. Or 21 to 25 if packed bytes are damaged, and then the contents of the buffer
    /// are unspecified.
    pub fn expand_into(&self, buffer: &mut [u8]) -> Result<usize, Error> {
        let unpacked = self.unpacked();
        let packed = self.kind == SectionKind::Pattern;
        let length = if packed { usize::try_from(self.unpacked_size).unwrap_or(usize::MAX) } else { unpacked.len() };
        let out = buffer.get_mut(..length).ok_or_else(|| Error::new(sys::PEF_ROOM_TOO_SMALL))?;
        if packed {
            raw::expand_into(self.raw, out).map_err(Error::new)?;
        } else {
            out.copy_from_slice(unpacked);
        }
        Ok(length)
    }

    fn unpacked(&self) -> &'a [u8] {
        let length = usize::try_from(self.unpacked_size).unwrap_or(usize::MAX);
        &self.raw[..self.raw.len().min(length)]
    }
}

impl fmt::Debug for Section<'_> {
    fn fmt(&self, out: &mut fmt::Formatter<'_>) -> fmt::Result {
        out.debug_struct("Section")
            .field("number", &self.number)
            .field("name", &self.name.map(Text))
            .field("kind", &self.kind)
            .field("share", &self.share)
            .field("alignment", &self.alignment)
            .field("default_address", &self.default_address)
            .field("total_size", &self.total_size)
            .field("unpacked_size", &self.unpacked_size)
            .field("container_offset", &self.container_offset)
            .field("raw", &Count(self.raw))
            .field("instantiated", &self.instantiated)
            .finish()
    }
}

/// An entry point: a place in a section.
///
/// ```
/// let bytes = pef::link("section data data process 4 8\nmain data 4\n")?;
/// let container = pef::Container::read(&bytes)?;
/// assert_eq!(container.main().map(|it| (it.section, it.offset)), Some((0, 4)));
/// assert_eq!(container.init(), None);
/// # Ok::<(), Box<dyn std::error::Error>>(())
/// ```
#[derive(Clone, Copy, Debug, PartialEq, Eq, Hash)]
pub struct Entry {
    /// The number of the section. In a damaged container it may be any number, also a negative one.
    pub section: i32,
    /// The offset in it.
    pub offset: u32,
}

impl Entry {
    pub(crate) fn of(section: i32, offset: u32) -> Option<Self> {
        (section != sys::PEF_NO_ENTRY).then_some(Self { section, offset })
    }
}

/// An imported library: the fragment that it names, and the versions that fit.
///
/// ```
/// let bytes = pef::link("library Tools 5 4 weak\nimport start code strong\n")?;
/// let container = pef::Container::read(&bytes)?;
/// let library = container.libraries().next().unwrap();
/// assert_eq!((library.name, library.weak, library.imports), (&b"Tools"[..], true, 0..1));
/// # Ok::<(), Box<dyn std::error::Error>>(())
/// ```
#[derive(Clone, PartialEq, Eq)]
#[non_exhaustive]
pub struct Library<'a> {
    /// Its name.
    pub name: &'a [u8],
    /// The version against which this fragment was linked.
    pub current_version: u32,
    /// The oldest version of it that fits.
    pub old_imp_version: u32,
    /// The numbers of the imports from it.
    pub imports: Range<u32>,
    /// Whether it may be missing.
    pub weak: bool,
    /// Whether it is initialized before this fragment.
    pub init_before: bool,
}

impl<'a> Library<'a> {
    pub(crate) fn of(bytes: &'a [u8], row: &sys::pef_library) -> Self {
        Self {
            name: raw::part_of(bytes, row.name),
            current_version: row.current_version,
            old_imp_version: row.old_imp_version,
            imports: row.first_import..row.first_import.saturating_add(row.import_count),
            weak: row.options & sys::PEF_LIBRARY_WEAK != 0,
            init_before: row.options & sys::PEF_LIBRARY_INIT_BEFORE != 0,
        }
    }
}

impl fmt::Debug for Library<'_> {
    fn fmt(&self, out: &mut fmt::Formatter<'_>) -> fmt::Result {
        out.debug_struct("Library")
            .field("name", &Text(self.name))
            .field("current_version", &self.current_version)
            .field("old_imp_version", &self.old_imp_version)
            .field("imports", &self.imports)
            .field("weak", &self.weak)
            .field("init_before", &self.init_before)
            .finish()
    }
}

/// An imported symbol.
///
/// ```
/// let bytes = pef::link("library Tools 5 4 -\nimport start code weak\n")?;
/// let import = pef::Container::read(&bytes)?.imports().next().unwrap();
/// assert_eq!((import.name, import.library, import.weak), (&b"start"[..], Some(0), true));
/// # Ok::<(), Box<dyn std::error::Error>>(())
/// ```
#[derive(Clone, Copy, PartialEq, Eq)]
#[non_exhaustive]
pub struct Import<'a> {
    /// Its number.
    pub number: usize,
    /// Its name.
    pub name: &'a [u8],
    /// The number of its library. In a damaged container it may be in no library's range.
    pub library: Option<usize>,
    /// What it names.
    pub class: SymbolClass,
    /// Whether it may be missing.
    pub weak: bool,
}

impl<'a> Import<'a> {
    pub(crate) fn of(bytes: &'a [u8], number: usize, row: &sys::pef_import) -> Self {
        Self {
            number,
            name: raw::part_of(bytes, row.name),
            library: (row.library != sys::PEF_NO_LIBRARY).then_some(row.library),
            class: row.symbol_class.into(),
            weak: row.weak,
        }
    }
}

impl fmt::Debug for Import<'_> {
    fn fmt(&self, out: &mut fmt::Formatter<'_>) -> fmt::Result {
        out.debug_struct("Import")
            .field("number", &self.number)
            .field("name", &Text(self.name))
            .field("library", &self.library)
            .field("class", &self.class)
            .field("weak", &self.weak)
            .finish()
    }
}

/// What an exported symbol is.
///
/// ```
/// let bytes = pef::link("section data data process 4 8\nexport answer data data 4\nabsolute version data 3\n")?;
/// for export in pef::Container::read(&bytes)?.exports() {
///     match export.value {
///         pef::ExportValue::InSection { section, offset } => assert_eq!((section, offset), (0, 4)),
///         pef::ExportValue::Absolute(number) => assert_eq!(number, 3),
///         other => println!("{other:?}"),
///     }
/// }
/// # Ok::<(), Box<dyn std::error::Error>>(())
/// ```
#[derive(Clone, Copy, Debug, PartialEq, Eq, Hash)]
#[non_exhaustive]
pub enum ExportValue {
    /// A place in a section.
    InSection {
        /// The number of the section.
        section: u32,
        /// The offset in it.
        offset: u32,
    },
    /// A number.
    Absolute(u32),
    /// The import with this number, which is passed on.
    Reexport(u32),
    /// Something else, in a damaged container.
    Other {
        /// The number in place of the section's.
        section: i32,
        /// The number in place of the offset.
        value: u32,
    },
}

/// An exported symbol.
///
/// ```
/// let bytes = pef::link("section data data process 4 8\nexport answer data data 4\n")?;
/// let export = pef::Container::read(&bytes)?.find("answer").unwrap();
/// assert_eq!(export.value, pef::ExportValue::InSection { section: 0, offset: 4 });
/// # Ok::<(), Box<dyn std::error::Error>>(())
/// ```
#[derive(Clone, Copy, PartialEq, Eq)]
#[non_exhaustive]
pub struct Export<'a> {
    /// Its number, in the order of the container's keys.
    pub number: usize,
    /// Its name.
    pub name: &'a [u8],
    /// What it is.
    pub value: ExportValue,
    /// What it names.
    pub class: SymbolClass,
}

impl<'a> Export<'a> {
    pub(crate) fn of(bytes: &'a [u8], number: usize, row: &sys::pef_export) -> Self {
        let value = match (row.section, u32::try_from(row.section)) {
            (_, Ok(section)) => ExportValue::InSection { section, offset: row.value },
            (sys::PEF_ABSOLUTE, _) => ExportValue::Absolute(row.value),
            (sys::PEF_REEXPORT, _) => ExportValue::Reexport(row.value),
            (section, _) => ExportValue::Other { section, value: row.value },
        };
        Self { number, name: raw::part_of(bytes, row.name), value, class: row.symbol_class.into() }
    }
}

impl fmt::Debug for Export<'_> {
    fn fmt(&self, out: &mut fmt::Formatter<'_>) -> fmt::Result {
        out.debug_struct("Export")
            .field("number", &self.number)
            .field("name", &Text(self.name))
            .field("value", &self.value)
            .field("class", &self.class)
            .finish()
    }
}

/// A relocation header: the section that is relocated, and its program.
///
/// ```
/// let bytes = pef::link("section data data process 4 8\nfix data 4 section data\n")?;
/// let relocation = pef::Container::read(&bytes)?.relocations().next().unwrap();
/// let fixups = relocation.fixups().collect::<Result<Vec<_>, _>>()?;
/// assert_eq!((relocation.section, fixups[0].offset), (0, 4));
/// # Ok::<(), Box<dyn std::error::Error>>(())
/// ```
#[derive(Clone, Copy)]
#[non_exhaustive]
pub struct Relocation<'a> {
    /// Its number.
    pub number: usize,
    /// The number of the section that is relocated.
    pub section: u32,
    /// The instructions, two bytes for each halfword, the high one first.
    pub instructions: &'a [u8],
    container: &'a [u8],
}

impl<'a> Relocation<'a> {
    pub(crate) fn of(bytes: &'a [u8], number: usize, row: &sys::pef_relocation) -> Self {
        Self { number, section: row.section, instructions: raw::part_of(bytes, row.instructions), container: bytes }
    }

    /// The additions of its program, in the order in which it makes them.
    ///
    /// Words, sections and imports needn't exist. A program can make up to 17,179,869,184 additions.
    ///
    /// An error ends the iterator: 31 to 36 for a damaged program, or 201 if its instructions extend past the loader section.
    pub fn fixups(&self) -> Fixups<'a> {
        Fixups::new(self.container, self.number)
    }
}

impl fmt::Debug for Relocation<'_> {
    fn fmt(&self, out: &mut fmt::Formatter<'_>) -> fmt::Result {
        out.debug_struct("Relocation")
            .field("number", &self.number)
            .field("section", &self.section)
            .field("instructions", &Count(self.instructions))
            .finish()
    }
}

/// What is added to a word: the address of the section or of the target of the import with this number.
///
/// ```
/// let bytes = pef::link("library Tools 1 0 -\nimport answer data strong\nsection data data process 4 4\nfix data 0 import answer\n")?;
/// let fixup = pef::Container::read(&bytes)?.relocations().next().unwrap().fixups().next().unwrap()?;
/// assert_eq!(fixup.target, pef::FixupTarget::Import(0));
/// # Ok::<(), Box<dyn std::error::Error>>(())
/// ```
#[derive(Clone, Copy, Debug, PartialEq, Eq, Hash)]
#[allow(missing_docs)]
pub enum FixupTarget {
    Section(u64),
    Import(u64),
}

/// An addition of a relocation program: the offset of a word in the section, and what is added to it.
///
/// ```
/// let bytes = pef::link("section data data process 4 8\nfix data 4 section data\n")?;
/// let fixup = pef::Container::read(&bytes)?.relocations().next().unwrap().fixups().next().unwrap()?;
/// assert_eq!(fixup, pef::Fixup { offset: 4, target: pef::FixupTarget::Section(0) });
/// # Ok::<(), Box<dyn std::error::Error>>(())
/// ```
#[derive(Clone, Copy, Debug, PartialEq, Eq, Hash)]
pub struct Fixup {
    /// The offset of the word in the section that is relocated.
    pub offset: u64,
    /// What is added to the word.
    pub target: FixupTarget,
}

impl Fixup {
    pub(crate) fn of(row: &sys::pef_fixup) -> Self {
        let target = if row.kind == sys::PEF_FIXUP_SECTION { FixupTarget::Section(row.number) } else { FixupTarget::Import(row.number) };
        Self { offset: row.offset, target }
    }
}
