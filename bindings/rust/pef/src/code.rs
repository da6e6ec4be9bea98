//! The numbers of errors and notes.

use core::fmt;

use crate::raw;

/// The calls of an error that say what it is, by its `code`.
macro_rules! calls_of_code {
    () => {
        /// What it is.
        pub fn code(&self) -> $crate::Code {
            self.code
        }

        /// Its number, as `pef` prints it.
        pub fn number(&self) -> u32 {
            self.code.number()
        }

        /// Its name, as `pef` prints it.
        pub fn name(&self) -> &'static str {
            self.code.name()
        }

        /// One or two sentences: what it means, and what to do.
        pub fn help(&self) -> &'static str {
            self.code.help()
        }
    };
}
pub(crate) use calls_of_code;

macro_rules! codes {
    ($($(#[$doc:meta])* $name:ident = $number:ident,)*) => {
        /// What an error or a note is. `docs/ERRORS.md` of the project explains each.
        ///
        /// Errors of containers have numbers up to 39, of scripts from 41, of preparations from 60, of files of the classic Mac OS from 76;
        /// notes have them from 101, and what this library alone answers from 200.
        ///
        /// ```
        /// use pef::Code;
        ///
        /// assert_eq!(Code::from(2), Code::BadTag);
        /// assert_eq!((Code::BadTag.number(), Code::BadTag.name()), (2, "BadTag"));
        /// assert!(Code::BadTag.help().contains("Joy!"));
        /// ```
        #[derive(Clone, Copy, Debug, PartialEq, Eq, Hash)]
        #[non_exhaustive]
        pub enum Code {
            $(
                #[doc = concat!("`", stringify!($number), "`")]
                $name,
            )*
            /// A number that this version of the crate doesn't know.
            Other(u32),
        }

        impl Code {
            /// The number, as `pef` prints it.
            pub fn number(self) -> u32 {
                match self {
                    $(Self::$name => pef_sys::$number,)*
                    Self::Other(number) => number,
                }
            }

            /// The name of the constant in C, which no other number has: three pairs of errors have the same [name](Self::name).
            ///
            /// ```
            /// assert_eq!(pef::Code::PackedTooShort.c_name(), Some("PEF_PACKED_TOO_SHORT"));
            /// assert_eq!(pef::Code::PackedTooShort.name(), pef::Code::TooShort.name());
            /// ```
            pub fn c_name(self) -> Option<&'static str> {
                match self {
                    $(Self::$name => Some(stringify!($number)),)*
                    Self::Other(_) => None,
                }
            }
        }

        impl From<u32> for Code {
            fn from(number: u32) -> Self {
                match number {
                    $(pef_sys::$number => Self::$name,)*
                    _ => Self::Other(number),
                }
            }
        }
    };
}

codes! {
    // Variants, written by tools/declarations from docs/errors.table:
    TooShort = PEF_TOO_SHORT,
    BadTag = PEF_BAD_TAG,
    BadArchitecture = PEF_BAD_ARCHITECTURE,
    BadFormatVersion = PEF_BAD_FORMAT_VERSION,
    BadSectionCounts = PEF_BAD_SECTION_COUNTS,
    SectionOutside = PEF_SECTION_OUTSIDE,
    BadSectionKind = PEF_BAD_SECTION_KIND,
    BadSizes = PEF_BAD_SIZES,
    BadAlignment = PEF_BAD_ALIGNMENT,
    NoLoader = PEF_NO_LOADER,
    LoaderShort = PEF_LOADER_SHORT,
    BadTableOffset = PEF_BAD_TABLE_OFFSET,
    BadName = PEF_BAD_NAME,
    BadLibraryRange = PEF_BAD_LIBRARY_RANGE,
    OrphanImport = PEF_ORPHAN_IMPORT,
    BadEntry = PEF_BAD_ENTRY,
    BadRelocSection = PEF_BAD_RELOC_SECTION,
    RelocOutside = PEF_RELOC_OUTSIDE,
    BadExportTable = PEF_BAD_EXPORT_TABLE,
    BadExportSection = PEF_BAD_EXPORT_SECTION,
    PackedTruncated = PEF_PACKED_TRUNCATED,
    PackedBadOpcode = PEF_PACKED_BAD_OPCODE,
    PackedCountTooLarge = PEF_PACKED_COUNT_TOO_LARGE,
    PackedTooLong = PEF_PACKED_TOO_LONG,
    PackedTooShort = PEF_PACKED_TOO_SHORT,
    RelocBadOpcode = PEF_RELOC_BAD_OPCODE,
    RelocCutInstruction = PEF_RELOC_CUT_INSTRUCTION,
    RelocRepeatTooFar = PEF_RELOC_REPEAT_TOO_FAR,
    RelocRepeatCuts = PEF_RELOC_REPEAT_CUTS,
    RelocNestedRepeat = PEF_RELOC_NESTED_REPEAT,
    RelocTooManySteps = PEF_RELOC_TOO_MANY_STEPS,
    RelocWordOutside = PEF_RELOC_WORD_OUTSIDE,
    RelocImportOutside = PEF_RELOC_IMPORT_OUTSIDE,
    RelocSectionOutside = PEF_RELOC_SECTION_OUTSIDE,
    ScriptBadLine = PEF_SCRIPT_BAD_LINE,
    ScriptBadNumber = PEF_SCRIPT_BAD_NUMBER,
    ScriptUnknownName = PEF_SCRIPT_UNKNOWN_NAME,
    ScriptRepeatedName = PEF_SCRIPT_REPEATED_NAME,
    ScriptOutOfOrder = PEF_SCRIPT_OUT_OF_ORDER,
    ScriptOverlap = PEF_SCRIPT_OVERLAP,
    ScriptOutsideSection = PEF_SCRIPT_OUTSIDE_SECTION,
    ScriptTooMany = PEF_SCRIPT_TOO_MANY,
    ScriptBadKind = PEF_SCRIPT_BAD_KIND,
    RootMissing = PEF_ROOT_MISSING,
    LibraryMissing = PEF_LIBRARY_MISSING,
    SymbolMissing = PEF_SYMBOL_MISSING,
    ImplementationTooOld = PEF_IMPLEMENTATION_TOO_OLD,
    ImplementationTooNew = PEF_IMPLEMENTATION_TOO_NEW,
    ReexportLoop = PEF_REEXPORT_LOOP,
    InitLoop = PEF_INIT_LOOP,
    NoRoom = PEF_NO_ROOM,
    BadConnection = PEF_BAD_CONNECTION,
    TooManyConnections = PEF_TOO_MANY_CONNECTIONS,
    TooManyStepsInAll = PEF_TOO_MANY_STEPS_IN_ALL,
    TooManyBytes = PEF_TOO_MANY_BYTES,
    DataForkCut = PEF_DATA_FORK_CUT,
    ResourceForkCut = PEF_RESOURCE_FORK_CUT,
    CommentCut = PEF_COMMENT_CUT,
    NoContainer = PEF_NO_CONTAINER,
    BadMacBinaryCrc = PEF_BAD_MAC_BINARY_CRC,
    AppleHeaderCut = PEF_APPLE_HEADER_CUT,
    BadAppleVersion = PEF_BAD_APPLE_VERSION,
    AppleEntryCut = PEF_APPLE_ENTRY_CUT,
    AppleEntryOutside = PEF_APPLE_ENTRY_OUTSIDE,
    AppleEntryShort = PEF_APPLE_ENTRY_SHORT,
    ResourceMapOutside = PEF_RESOURCE_MAP_OUTSIDE,
    BadTypeList = PEF_BAD_TYPE_LIST,
    ResourceTypeCut = PEF_RESOURCE_TYPE_CUT,
    TooManyReferences = PEF_TOO_MANY_REFERENCES,
    ReferenceCut = PEF_REFERENCE_CUT,
    ResourceNameCut = PEF_RESOURCE_NAME_CUT,
    ResourceDataOutside = PEF_RESOURCE_DATA_OUTSIDE,
    FragmentTableCut = PEF_FRAGMENT_TABLE_CUT,
    BadFragmentTable = PEF_BAD_FRAGMENT_TABLE,
    MemberCut = PEF_MEMBER_CUT,
    MemberNameCut = PEF_MEMBER_NAME_CUT,
    FragmentOutside = PEF_FRAGMENT_OUTSIDE,
    OutOfMemory = PEF_OUT_OF_MEMORY,
    NoteReservedNotZero = PEF_NOTE_RESERVED_NOT_ZERO,
    NoteUnknownKind = PEF_NOTE_UNKNOWN_KIND,
    NoteUnknownShare = PEF_NOTE_UNKNOWN_SHARE,
    NoteVersionBelowOldest = PEF_NOTE_VERSION_BELOW_OLDEST,
    NoteEntryOutside = PEF_NOTE_ENTRY_OUTSIDE,
    NoteExportOutside = PEF_NOTE_EXPORT_OUTSIDE,
    NoteWordOutsideImage = PEF_NOTE_WORD_OUTSIDE_IMAGE,
    NoteIrregularExports = PEF_NOTE_IRREGULAR_EXPORTS,
    NoteTrailingBytes = PEF_NOTE_TRAILING_BYTES,
    NoteProgramsUnverified = PEF_NOTE_PROGRAMS_UNVERIFIED,
    NoteImagesUnverified = PEF_NOTE_IMAGES_UNVERIFIED,
    NoteOverlap = PEF_NOTE_OVERLAP,
    NoteUnownedBytes = PEF_NOTE_UNOWNED_BYTES,
    NoteWordRelocatedTwice = PEF_NOTE_WORD_RELOCATED_TWICE,
    NoteContainersUnverified = PEF_NOTE_CONTAINERS_UNVERIFIED,
    NoteSectionsOutOfOrder = PEF_NOTE_SECTIONS_OUT_OF_ORDER,
    NoteBytesAfterForks = PEF_NOTE_BYTES_AFTER_FORKS,
    NoteFragmentShort = PEF_NOTE_FRAGMENT_SHORT,
    NoteDataForkElsewhere = PEF_NOTE_DATA_FORK_ELSEWHERE,
    NoteNotUnpacked = PEF_NOTE_NOT_UNPACKED,
    NoteNameOutside = PEF_NOTE_NAME_OUTSIDE,
    NoteFragmentArchitecture = PEF_NOTE_FRAGMENT_ARCHITECTURE,
    NoteFragmentUsage = PEF_NOTE_FRAGMENT_USAGE,
    NoteTextDamage = PEF_NOTE_TEXT_DAMAGE,
    NoteZeroRows = PEF_NOTE_ZERO_ROWS,
    RoomTooSmall = PEF_ROOM_TOO_SMALL,
    NotThere = PEF_NOT_THERE,
    NotOpen = PEF_NOT_OPEN,
    AddedTooLate = PEF_ADDED_TOO_LATE,
    StoreFull = PEF_STORE_FULL,
    BadGranule = PEF_BAD_GRANULE,
    BadOptions = PEF_BAD_OPTIONS,
    StillPresent = PEF_STILL_PRESENT,
    StillNamed = PEF_STILL_NAMED,
    NameTaken = PEF_NAME_TAKEN,
    WrongAddressCount = PEF_WRONG_ADDRESS_COUNT,
    TooManySymbols = PEF_TOO_MANY_SYMBOLS,
    LongName = PEF_LONG_NAME,
    TooManyNameBytes = PEF_TOO_MANY_NAME_BYTES,
    PastLastNumber = PEF_PAST_LAST_NUMBER,
    UnspellableName = PEF_UNSPELLABLE_NAME,
    TooManyStubBytes = PEF_TOO_MANY_STUB_BYTES,
    // The end of what is written.
}

impl Code {
    /// The name, as `pef` prints it.
    pub fn name(self) -> &'static str {
        raw::name_of(self.number()).unwrap_or("Unknown")
    }

    /// One or two sentences: what it means, and what to do.
    pub fn help(self) -> &'static str {
        raw::help_of(self.number()).unwrap_or("")
    }
}

impl fmt::Display for Code {
    /// Writes the number and the name.
    fn fmt(&self, out: &mut fmt::Formatter<'_>) -> fmt::Result {
        write!(out, "{} {}", self.number(), self.name())
    }
}
