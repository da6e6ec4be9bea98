// Written by tools/declarations from include/pef.h. Change that, and run it again.

// The version of this header.
pub const PEF_VERSION_MAJOR: u32 = 0;

pub const PEF_VERSION_MINOR: u32 = 1;

pub const PEF_VERSION_PATCH: u32 = 0;

pub const PEF_VERSION: &str = "0.1.0";

/// The same as one number, to be compared with `pef_version()`.
pub const PEF_VERSION_NUMBER: u32 = PEF_VERSION_MAJOR << 16 | PEF_VERSION_MINOR << 8 | PEF_VERSION_PATCH;

/// Bytes that somebody else owns. They have no zero byte at their end.
#[repr(C)]
#[derive(Clone, Copy, Debug)]
pub struct pef_bytes {
    pub at: *const u8,
    pub length: usize,
}

// No bytes, at a place that isn't null: struct pef_bytes name = PEF_NO_BYTES;
pub const PEF_NO_BYTES: pef_bytes = pef_bytes { at: [].as_ptr(), length: 0 };

/// The call did what it says.
pub const PEF_OK: u32 = 0;

// The container is refused.
pub const PEF_TOO_SHORT: u32 = 1;

pub const PEF_BAD_TAG: u32 = 2;

pub const PEF_BAD_ARCHITECTURE: u32 = 3;

pub const PEF_BAD_FORMAT_VERSION: u32 = 4;

pub const PEF_BAD_SECTION_COUNTS: u32 = 5;

pub const PEF_SECTION_OUTSIDE: u32 = 6;

pub const PEF_BAD_SECTION_KIND: u32 = 7;

pub const PEF_BAD_SIZES: u32 = 8;

pub const PEF_BAD_ALIGNMENT: u32 = 9;

pub const PEF_NO_LOADER: u32 = 10;

// Its loader section is refused.
pub const PEF_LOADER_SHORT: u32 = 11;

pub const PEF_BAD_TABLE_OFFSET: u32 = 12;

pub const PEF_BAD_NAME: u32 = 13;

pub const PEF_BAD_LIBRARY_RANGE: u32 = 14;

pub const PEF_ORPHAN_IMPORT: u32 = 15;

pub const PEF_BAD_ENTRY: u32 = 16;

pub const PEF_BAD_RELOC_SECTION: u32 = 17;

pub const PEF_RELOC_OUTSIDE: u32 = 18;

pub const PEF_BAD_EXPORT_TABLE: u32 = 19;

pub const PEF_BAD_EXPORT_SECTION: u32 = 20;

// Packed data is refused.
pub const PEF_PACKED_TRUNCATED: u32 = 21;

pub const PEF_PACKED_BAD_OPCODE: u32 = 22;

pub const PEF_PACKED_COUNT_TOO_LARGE: u32 = 23;

pub const PEF_PACKED_TOO_LONG: u32 = 24;

pub const PEF_PACKED_TOO_SHORT: u32 = 25;

// A relocation program is refused.
pub const PEF_RELOC_BAD_OPCODE: u32 = 31;

pub const PEF_RELOC_CUT_INSTRUCTION: u32 = 32;

pub const PEF_RELOC_REPEAT_TOO_FAR: u32 = 33;

pub const PEF_RELOC_REPEAT_CUTS: u32 = 34;

pub const PEF_RELOC_NESTED_REPEAT: u32 = 35;

pub const PEF_RELOC_TOO_MANY_STEPS: u32 = 36;

pub const PEF_RELOC_WORD_OUTSIDE: u32 = 37;

pub const PEF_RELOC_IMPORT_OUTSIDE: u32 = 38;

pub const PEF_RELOC_SECTION_OUTSIDE: u32 = 39;

// A line of a script is refused.
pub const PEF_SCRIPT_BAD_LINE: u32 = 41;

pub const PEF_SCRIPT_BAD_NUMBER: u32 = 42;

pub const PEF_SCRIPT_UNKNOWN_NAME: u32 = 43;

pub const PEF_SCRIPT_REPEATED_NAME: u32 = 44;

pub const PEF_SCRIPT_OUT_OF_ORDER: u32 = 45;

pub const PEF_SCRIPT_OVERLAP: u32 = 46;

pub const PEF_SCRIPT_OUTSIDE_SECTION: u32 = 47;

pub const PEF_SCRIPT_TOO_MANY: u32 = 48;

pub const PEF_SCRIPT_BAD_KIND: u32 = 49;

// A fragment isn't prepared, or a connection isn't closed.
pub const PEF_ROOT_MISSING: u32 = 60;

pub const PEF_LIBRARY_MISSING: u32 = 61;

pub const PEF_SYMBOL_MISSING: u32 = 62;

pub const PEF_IMPLEMENTATION_TOO_OLD: u32 = 63;

pub const PEF_IMPLEMENTATION_TOO_NEW: u32 = 64;

pub const PEF_REEXPORT_LOOP: u32 = 65;

pub const PEF_INIT_LOOP: u32 = 66;

pub const PEF_NO_ROOM: u32 = 67;

pub const PEF_BAD_CONNECTION: u32 = 68;

pub const PEF_TOO_MANY_CONNECTIONS: u32 = 69;

pub const PEF_TOO_MANY_STEPS_IN_ALL: u32 = 70;

pub const PEF_TOO_MANY_BYTES: u32 = 75;

// A file of the classic Mac OS has no container with this name or number, or a part of it is damaged.
pub const PEF_DATA_FORK_CUT: u32 = 76;

pub const PEF_RESOURCE_FORK_CUT: u32 = 77;

pub const PEF_COMMENT_CUT: u32 = 78;

pub const PEF_NO_CONTAINER: u32 = 80;

pub const PEF_BAD_MAC_BINARY_CRC: u32 = 81;

pub const PEF_APPLE_HEADER_CUT: u32 = 82;

pub const PEF_BAD_APPLE_VERSION: u32 = 83;

pub const PEF_APPLE_ENTRY_CUT: u32 = 84;

pub const PEF_APPLE_ENTRY_OUTSIDE: u32 = 85;

pub const PEF_APPLE_ENTRY_SHORT: u32 = 86;

pub const PEF_RESOURCE_MAP_OUTSIDE: u32 = 87;

pub const PEF_BAD_TYPE_LIST: u32 = 88;

pub const PEF_RESOURCE_TYPE_CUT: u32 = 89;

pub const PEF_TOO_MANY_REFERENCES: u32 = 90;

pub const PEF_REFERENCE_CUT: u32 = 91;

pub const PEF_RESOURCE_NAME_CUT: u32 = 92;

pub const PEF_RESOURCE_DATA_OUTSIDE: u32 = 93;

pub const PEF_FRAGMENT_TABLE_CUT: u32 = 94;

pub const PEF_BAD_FRAGMENT_TABLE: u32 = 95;

pub const PEF_MEMBER_CUT: u32 = 96;

pub const PEF_MEMBER_NAME_CUT: u32 = 97;

pub const PEF_FRAGMENT_OUTSIDE: u32 = 98;

/// An allocation failed.
pub const PEF_OUT_OF_MEMORY: u32 = 99;

// Notes: oddities that break no rule. No call returns them; findings and reports have them.
pub const PEF_NOTE_RESERVED_NOT_ZERO: u32 = 101;

pub const PEF_NOTE_UNKNOWN_KIND: u32 = 102;

pub const PEF_NOTE_UNKNOWN_SHARE: u32 = 103;

pub const PEF_NOTE_VERSION_BELOW_OLDEST: u32 = 104;

pub const PEF_NOTE_ENTRY_OUTSIDE: u32 = 105;

pub const PEF_NOTE_EXPORT_OUTSIDE: u32 = 106;

pub const PEF_NOTE_WORD_OUTSIDE_IMAGE: u32 = 107;

pub const PEF_NOTE_IRREGULAR_EXPORTS: u32 = 108;

pub const PEF_NOTE_TRAILING_BYTES: u32 = 109;

pub const PEF_NOTE_PROGRAMS_UNVERIFIED: u32 = 110;

pub const PEF_NOTE_IMAGES_UNVERIFIED: u32 = 111;

pub const PEF_NOTE_OVERLAP: u32 = 112;

pub const PEF_NOTE_UNOWNED_BYTES: u32 = 113;

pub const PEF_NOTE_WORD_RELOCATED_TWICE: u32 = 114;

pub const PEF_NOTE_CONTAINERS_UNVERIFIED: u32 = 115;

pub const PEF_NOTE_SECTIONS_OUT_OF_ORDER: u32 = 116;

pub const PEF_NOTE_BYTES_AFTER_FORKS: u32 = 117;

pub const PEF_NOTE_FRAGMENT_SHORT: u32 = 118;

pub const PEF_NOTE_DATA_FORK_ELSEWHERE: u32 = 119;

pub const PEF_NOTE_NOT_UNPACKED: u32 = 120;

pub const PEF_NOTE_NAME_OUTSIDE: u32 = 121;

pub const PEF_NOTE_FRAGMENT_ARCHITECTURE: u32 = 122;

pub const PEF_NOTE_FRAGMENT_USAGE: u32 = 123;

pub const PEF_NOTE_TEXT_DAMAGE: u32 = 124;

pub const PEF_NOTE_ZERO_ROWS: u32 = 125;

// Only this library returns these: the caller's buffer is too small; there is no such thing; the context isn't open; a
// fragment of an open connection was prepared without the weak library that is added; the context has as many fragments
// as it may; the granule is none; the options have another size; the fragment is present; a fragment of an open
// connection names it as a library; a fragment has the name already; there are more or fewer addresses than new
// sections; no container can export so many symbols, or a name of this length, or so many bytes of names; a number of a
// stub has more than 32 bits; a stub in memory can't have this name, or so many bytes.
pub const PEF_ROOM_TOO_SMALL: u32 = 200;

pub const PEF_NOT_THERE: u32 = 201;

pub const PEF_NOT_OPEN: u32 = 202;

pub const PEF_ADDED_TOO_LATE: u32 = 203;

pub const PEF_STORE_FULL: u32 = 204;

pub const PEF_BAD_GRANULE: u32 = 205;

pub const PEF_BAD_OPTIONS: u32 = 206;

pub const PEF_STILL_PRESENT: u32 = 207;

pub const PEF_STILL_NAMED: u32 = 208;

pub const PEF_NAME_TAKEN: u32 = 209;

pub const PEF_WRONG_ADDRESS_COUNT: u32 = 210;

pub const PEF_TOO_MANY_SYMBOLS: u32 = 211;

pub const PEF_LONG_NAME: u32 = 212;

pub const PEF_TOO_MANY_NAME_BYTES: u32 = 213;

pub const PEF_PAST_LAST_NUMBER: u32 = 214;

pub const PEF_UNSPELLABLE_NAME: u32 = 215;

pub const PEF_TOO_MANY_STUB_BYTES: u32 = 216;

// How many fragments a context has at most at a time, and how many connections it gives if no other number was asked for, closed ones
// included.
pub const PEF_MAX_FRAGMENTS: usize = 256;

pub const PEF_MAX_CONNECTIONS: u32 = 65536;

// Section kinds. PEF_KIND_PACKED is pattern-initialized data, which pef_expand() expands.
pub const PEF_KIND_CODE: u8 = 0;

pub const PEF_KIND_DATA: u8 = 1;

pub const PEF_KIND_PACKED: u8 = 2;

pub const PEF_KIND_CONSTANT: u8 = 3;

pub const PEF_KIND_LOADER: u8 = 4;

pub const PEF_KIND_DEBUG: u8 = 5;

pub const PEF_KIND_EXECUTABLE_DATA: u8 = 6;

pub const PEF_KIND_EXCEPTION: u8 = 7;

pub const PEF_KIND_TRACEBACK: u8 = 8;

// How instances of a section are shared.
pub const PEF_SHARE_PROCESS: u8 = 1;

pub const PEF_SHARE_GLOBAL: u8 = 4;

pub const PEF_SHARE_PROTECTED: u8 = 5;

// Classes of symbols.
pub const PEF_CLASS_CODE: u8 = 0;

pub const PEF_CLASS_DATA: u8 = 1;

pub const PEF_CLASS_TVECTOR: u8 = 2;

pub const PEF_CLASS_TOC: u8 = 3;

pub const PEF_CLASS_GLUE: u8 = 4;

/// The section of an entry that isn't there.
pub const PEF_NO_ENTRY: i32 = -1;

// Sections of exports that are no section: an absolute value, and an import that is passed on, by its number.
pub const PEF_ABSOLUTE: i32 = -2;

pub const PEF_REEXPORT: i32 = -3;

// Options of a library.
pub const PEF_LIBRARY_WEAK: u8 = 0x40;

pub const PEF_LIBRARY_INIT_BEFORE: u8 = 0x80;

/// A listing that is read part by part. It starts as zero bytes:
///
/// ```c
/// struct pef_listing listing = PEF_NO_LISTING;
///
/// ```
/// Only the three calls below change it, and it isn't copied. Several listings may be open at once.
#[repr(C)]
#[derive(Clone, Copy, Debug)]
pub struct pef_listing {
    pub handle: *mut core::ffi::c_void,
    pub is_open: bool,
}

/// No listing, which are zero bytes: struct pef_listing listing = PEF_NO_LISTING;
pub const PEF_NO_LISTING: pef_listing = pef_listing { handle: core::ptr::null_mut(), is_open: false };

/// Where an error is. docs/ERRORS.md says what each error is about.
///
/// `part` is one of the numbers below. `row` is the number of the part among those of its kind, from 0: of a section, say, or an
/// import. Packed data has the number of its section, a program that of its relocation header. A line counts from 1. `field` is the
/// offset of the field in the part, as PEFBinaryFormat.h has the part; in packed data and in programs the offset of the
/// instruction; in a line the number of the word, from 0. `offset` is where that field, instruction or word begins in the container
/// or the text.
#[repr(C)]
#[derive(Clone, Copy, Debug)]
pub struct pef_place {
    pub part: u32,
    pub row: usize,
    pub field: usize,
    pub offset: usize,
}

// An error that is at no place has PEF_NOWHERE and PEF_NO_OFFSET.
pub const PEF_NOWHERE: u32 = 0;

pub const PEF_CONTAINER_HEADER_PART: u32 = 1;

pub const PEF_SECTION_PART: u32 = 2;

pub const PEF_LOADER_HEADER_PART: u32 = 3;

pub const PEF_LIBRARY_PART: u32 = 4;

pub const PEF_IMPORT_PART: u32 = 5;

pub const PEF_MAIN_PART: u32 = 6;

pub const PEF_INIT_PART: u32 = 7;

pub const PEF_TERM_PART: u32 = 8;

pub const PEF_RELOCATION_PART: u32 = 9;

pub const PEF_EXPORT_PART: u32 = 10;

pub const PEF_PACKED_DATA_PART: u32 = 11;

pub const PEF_PROGRAM_PART: u32 = 12;

pub const PEF_LINE_PART: u32 = 13;

/// The offset of what has none.
pub const PEF_NO_OFFSET: usize = usize::MAX;

// What the detail of an error or a note is: nothing, and 0; the offset of a relocated word in its section; a number of bytes; or a number
// of sections.
pub const PEF_DETAIL_NONE: u8 = 0;

pub const PEF_DETAIL_WORD: u8 = 1;

pub const PEF_DETAIL_LENGTH: u8 = 2;

pub const PEF_DETAIL_SECTIONS: u8 = 3;

/// An error of a container, or a note on it, and where it is. Errors have numbers below 100, notes from 101 on.
///
/// `detail_kind` says what `detail` is. PEF_RELOC_WORD_OUTSIDE, PEF_RELOC_IMPORT_OUTSIDE, PEF_RELOC_SECTION_OUTSIDE,
/// PEF_NOTE_WORD_OUTSIDE_IMAGE and PEF_NOTE_WORD_RELOCATED_TWICE have a PEF_DETAIL_WORD; PEF_NOTE_TRAILING_BYTES, PEF_NOTE_OVERLAP and
/// PEF_NOTE_UNOWNED_BYTES a PEF_DETAIL_LENGTH; and PEF_NOTE_SECTIONS_OUT_OF_ORDER a PEF_DETAIL_SECTIONS: how many sections there are of a
/// kind that may be instantiated.
#[repr(C)]
#[derive(Clone, Copy, Debug)]
pub struct pef_finding {
    pub place: pef_place,
    pub detail: u64,
    pub number: u32,
    pub is_error: bool,
    pub detail_kind: u8,
}

/// A report that is read part by part. It starts as zero bytes:
///
/// ```c
/// struct pef_report report = PEF_NO_REPORT;
///
/// ```
/// Only the calls below change it, and it isn't copied. Several reports may be open at once.
#[repr(C)]
#[derive(Clone, Copy, Debug)]
pub struct pef_report {
    pub handle: *mut core::ffi::c_void,
    pub is_open: bool,
}

/// No report, which are zero bytes: struct pef_report report = PEF_NO_REPORT;
pub const PEF_NO_REPORT: pef_report = pef_report { handle: core::ptr::null_mut(), is_open: false };

/// A container in a file: where it begins, how many bytes it can have, and its number, from 0. Its bytes are those up to the end of its
/// fork, or of the file if it begins in no fork. If the report inspects no further containers, because it would cost more, they are all
/// up to the end of the file. The other fields are what the containers before it leave of what the report on the file
/// may cost, and how many of them weren't inspected, because it would have cost more. A program passes them on. It may copy the struct,
/// and use it as long as the file is the same.
///
/// After the last container `offset` is the length of the file, and `length` is 0.
#[repr(C)]
#[derive(Clone, Copy, Debug)]
pub struct pef_found_container {
    pub offset: usize,
    pub length: usize,
    pub number: u64,
    pub skipped: u64,
    pub budget: u64,
    pub program_bytes: u64,
    pub steps: u64,
    pub packed_bytes: u64,
    pub words: u64,
}

/// Rows of a container that begins at `offset` of a file: their kind, the number of the first one, from 0, and how many. `part` is
/// PEF_SECTION_PART, PEF_LIBRARY_PART, PEF_IMPORT_PART, PEF_RELOCATION_PART or PEF_EXPORT_PART.
#[repr(C)]
#[derive(Clone, Copy, Debug)]
pub struct pef_row_range {
    pub offset: usize,
    pub part: u32,
    pub from: u32,
    pub count: u32,
}

// Architectures, of four characters each: `pwpc` of PowerPC, and `m68k` of CFM-68K, whose containers aren't read.
pub const PEF_ARCHITECTURE_POWERPC: u32 = 0x70777063;

pub const PEF_ARCHITECTURE_68K: u32 = 0x6D36386B;

/// A container's header. Dates are seconds since the first of January 1904. The architecture is PEF_ARCHITECTURE_POWERPC, unless
/// `pef_partial_header()` reads the header.
#[repr(C)]
#[derive(Clone, Copy, Debug)]
pub struct pef_header {
    pub date_time_stamp: u32,
    pub old_def_version: u32,
    pub old_imp_version: u32,
    pub current_version: u32,
    pub section_count: u16,
    pub instantiated_section_count: u16,
    pub architecture: u32,
}

/// A section's header. Lengths and the offset into the container count bytes; the alignment is an exponent of two.
#[repr(C)]
#[derive(Clone, Copy, Debug)]
pub struct pef_section {
    pub default_address: u32,
    pub total_size: u32,
    pub unpacked_size: u32,
    pub packed_size: u32,
    pub container_offset: u32,
    pub kind: u8,
    pub share: u8,
    pub alignment: u8,
}

/// How many things a loader section has, and its entries: a section, or PEF_NO_ENTRY, and an offset.
#[repr(C)]
#[derive(Clone, Copy, Debug)]
pub struct pef_loader {
    pub main_section: i32,
    pub main_offset: u32,
    pub init_section: i32,
    pub init_offset: u32,
    pub term_section: i32,
    pub term_offset: u32,
    pub library_count: u32,
    pub import_count: u32,
    pub relocation_count: u32,
    pub export_count: u32,
}

/// An imported library: its imports are import_count symbols from first_import on.
#[repr(C)]
#[derive(Clone, Copy, Debug)]
pub struct pef_library {
    pub name: pef_bytes,
    pub current_version: u32,
    pub old_imp_version: u32,
    pub import_count: u32,
    pub first_import: u32,
    pub options: u8,
}

/// An imported symbol, and the number of its library. A weak one may be missing.
#[repr(C)]
#[derive(Clone, Copy, Debug)]
pub struct pef_import {
    pub name: pef_bytes,
    pub library: usize,
    pub symbol_class: u8,
    pub weak: bool,
}

/// A relocation header: the section that is relocated, and the bytes of its instructions, two for each halfword, the high one
/// first. docs/FORMATS.md has the instructions.
#[repr(C)]
#[derive(Clone, Copy, Debug)]
pub struct pef_relocation {
    pub instructions: pef_bytes,
    pub section: u32,
}

// The kinds of what is added to a word.
pub const PEF_FIXUP_SECTION: u32 = 1;

pub const PEF_FIXUP_IMPORT: u32 = 2;

/// An addition of a relocation program: the offset of a word in the section that is relocated, and what is added to the word:
/// the address of the section with this number, or of the target of the import with this number.
#[repr(C)]
#[derive(Clone, Copy, Debug)]
pub struct pef_fixup {
    pub offset: u64,
    pub number: u64,
    pub kind: u32,
}

/// An exported symbol: its value is an offset in a section, a number if the section is PEF_ABSOLUTE, or the number of an
/// import if it is PEF_REEXPORT.
#[repr(C)]
#[derive(Clone, Copy, Debug)]
pub struct pef_export {
    pub name: pef_bytes,
    pub section: i32,
    pub value: u32,
    pub symbol_class: u8,
}

/// The library of an import that is in no library's range.
pub const PEF_NO_LIBRARY: usize = usize::MAX;

// What a file is.
pub const PEF_FILE_OTHER: u32 = 0;

pub const PEF_FILE_CONTAINER: u32 = 1;

pub const PEF_FILE_MAC_BINARY: u32 = 2;

pub const PEF_FILE_APPLE_SINGLE: u32 = 3;

pub const PEF_FILE_APPLE_DOUBLE: u32 = 4;

pub const PEF_FILE_DAMAGED_APPLE: u32 = 5;

pub const PEF_FILE_RESOURCE_FORK: u32 = 6;

/// A part of a file: its bytes, where they begin in the file, and its error. Only a fork of MacBinary that passes the end of the file has
/// both: PEF_DATA_FORK_CUT or PEF_RESOURCE_FORK_CUT, and the bytes that are there.
#[repr(C)]
#[derive(Clone, Copy, Debug)]
pub struct pef_part {
    pub bytes: pef_bytes,
    pub offset: usize,
    pub error_offset: usize,
    pub error: u32,
}

/// No part.
pub const PEF_NO_PART: pef_part = pef_part { bytes: PEF_NO_BYTES, offset: 0, error_offset: 0, error: 0 };

/// What the Finder knows of a file. The type and the creator are four characters, the first in the highest byte.
#[repr(C)]
#[derive(Clone, Copy, Debug)]
pub struct pef_finder {
    pub error_offset: usize,
    pub error: u32,
    pub file_type: u32,
    pub creator: u32,
    pub flags: u16,
    pub vertical: i16,
    pub horizontal: i16,
    pub window: u16,
}

/// The forks of a file, its name, its comment and what the Finder knows of it; the error of its header, which is PEF_OK or
/// PEF_BAD_MAC_BINARY_CRC; and what it is. A file in no format is a resource fork if it has the form of one, else a data fork.
#[repr(C)]
#[derive(Clone, Copy, Debug)]
pub struct pef_forks {
    pub data_fork: pef_part,
    pub resource_fork: pef_part,
    pub name: pef_part,
    pub comment: pef_part,
    pub finder: pef_finder,
    pub error_offset: usize,
    pub error: u32,
    pub kind: u32,
}

/// No forks: struct pef_forks forks = PEF_NO_FORKS;
pub const PEF_NO_FORKS: pef_forks = pef_forks {
    data_fork: PEF_NO_PART,
    resource_fork: PEF_NO_PART,
    name: PEF_NO_PART,
    comment: PEF_NO_PART,
    finder: pef_finder { error_offset: 0, error: 0, file_type: 0, creator: 0, flags: 0, vertical: 0, horizontal: 0, window: 0 },
    error_offset: 0,
    error: 0,
    kind: 0,
};

/// The header and the map of a resource fork. The error is PEF_OK, or PEF_RESOURCE_MAP_OUTSIDE if the map passes the end.
#[repr(C)]
#[derive(Clone, Copy, Debug)]
pub struct pef_resource_map {
    pub error_offset: usize,
    pub error: u32,
    pub data_offset: u32,
    pub map_offset: u32,
    pub data_length: u32,
    pub map_length: u32,
    pub attributes: u16,
    pub type_count: u16,
}

/// A resource: its name, its bytes, where they begin in the fork, and the errors of both. The type is four characters, the first in the
/// highest byte. `type_row` is the row of its type, and `row` its row in the list of that type. If bit 0 of the attributes is set, the
/// bytes are compressed.
///
/// A row with an error from 89 to 91 is no resource: a row that can't be read. Then all but the errors and the rows is 0.
#[repr(C)]
#[derive(Clone, Copy, Debug)]
pub struct pef_resource {
    pub name: pef_bytes,
    pub bytes: pef_bytes,
    pub offset: usize,
    pub error_offset: usize,
    pub name_error_offset: usize,
    pub error: u32,
    pub name_error: u32,
    pub r#type: u32,
    pub id: i16,
    pub type_row: u16,
    pub row: u16,
    pub attributes: u8,
}

/// The type of a table of fragments, `cfrg`. Its id is 0.
pub const PEF_FRAGMENT_TABLE_TYPE: u32 = 0x63667267;

// What a member is for, and where its container is.
pub const PEF_USAGE_IMPORT_LIBRARY: u8 = 0;

pub const PEF_USAGE_APPLICATION: u8 = 1;

pub const PEF_USAGE_DROP_IN_ADDITION: u8 = 2;

pub const PEF_USAGE_STUB_LIBRARY: u8 = 3;

pub const PEF_USAGE_WEAK_STUB_LIBRARY: u8 = 4;

pub const PEF_LOCATOR_MEMORY: u8 = 0;

pub const PEF_LOCATOR_DATA_FORK: u8 = 1;

pub const PEF_LOCATOR_RESOURCE: u8 = 2;

/// A member of a table of fragments: its name, its container in the data fork, where it begins in the table, and what the table says of
/// it. `error` is PEF_OK, or PEF_MEMBER_CUT. `container_error` is PEF_NOT_THERE if the container isn't in the data fork. If it is in a
/// resource, `offset` is the resource's type and `length` its id.
///
/// The last row may be no member: one with PEF_MEMBER_CUT and no name, whose fields aren't all there. Then all but `place` and the errors
/// is 0.
#[repr(C)]
#[derive(Clone, Copy, Debug)]
pub struct pef_member {
    pub name: pef_bytes,
    pub container: pef_bytes,
    pub place: usize,
    pub error_offset: usize,
    pub name_error_offset: usize,
    pub container_error_offset: usize,
    pub error: u32,
    pub name_error: u32,
    pub container_error: u32,
    pub architecture: u32,
    pub current_version: u32,
    pub old_def_version: u32,
    pub stack_size: u32,
    pub offset: u32,
    pub length: u32,
    pub space_id: u32,
    pub directory_or_flags: u16,
    pub fork_instance: u16,
    pub extension_count: u16,
    pub size: u16,
    pub update_level: u8,
    pub usage: u8,
    pub locator: u8,
}

/// A context: fragments by name, and the memory in which they are prepared. It starts as zero bytes:
///
/// ```c
/// struct pef_context context = PEF_NO_CONTEXT;
///
/// ```
/// Only the calls below change it, and it isn't copied. Each of these calls returns PEF_NOT_OPEN, and changes
/// nothing, if the context isn't open: `pef_open()` wasn't called, failed, or was followed by `pef_free()`. Several contexts may be
/// open at once, also in different threads.
///
/// A fragment is named by its number, counted from 0 in the order in which fragments were added. The number of a removed one is
/// free, and goes to the next fragment whose name isn't there, so numbers can have gaps: `pef_next_fragment()` gives each number that a
/// fragment has. A fragment is present while the
/// closure of an open connection has it: the fragment that was prepared, with all fragments that it needs. A present
/// fragment keeps its addresses. Its sections are numbered as in its container, and only instantiated sections are in
/// memory. A call on a fragment looks it up, however many there are.
#[repr(C)]
#[derive(Clone, Copy, Debug)]
pub struct pef_context {
    pub handle: *mut core::ffi::c_void,
    pub is_open: bool,
}

/// No context, which are zero bytes: struct pef_context context = PEF_NO_CONTEXT;
pub const PEF_NO_CONTEXT: pef_context = pef_context { handle: core::ptr::null_mut(), is_open: false };

/// What a context is opened with. A field of 0 has its usual value, so a program sets what it wants to be otherwise:
///
/// ```c
/// struct pef_options options = PEF_USUAL_OPTIONS;
/// options.granule = 4096;
/// ```
#[repr(C)]
#[derive(Clone, Copy, Debug)]
pub struct pef_options {
    /// The size of this struct, by which a later library knows an older program's.
    pub size: u32,
    /// No section passes this address; usually 10000000 (hexadecimal).
    pub limit: u32,
    /// Each section begins at a multiple of this, and takes a multiple of it: a power of two from 16 on; usually 16.
    pub granule: u32,
    /// How many connections the context gives in all, closed ones included; usually PEF_MAX_CONNECTIONS.
    pub connections: u32,
    /// How many steps the relocation programs of one preparation may take together; usually there is no bound.
    pub steps: u64,
    /// How many bytes the new sections of one preparation may take together; usually there is no bound.
    pub bytes: u64,
}

/// Options that have their usual values.
pub const PEF_USUAL_OPTIONS: pef_options = pef_options { size: core::mem::size_of::<pef_options>() as u32, limit: 0, granule: 0, connections: 0, steps: 0, bytes: 0 };

/// The names that are reported with a refusal. A name that isn't reported is empty.
#[repr(C)]
#[derive(Clone, Copy, Debug)]
pub struct pef_names {
    pub fragment: pef_bytes,
    pub library: pef_bytes,
    pub symbol: pef_bytes,
}

/// No names: struct pef_names names = PEF_NO_NAMES;
pub const PEF_NO_NAMES: pef_names = pef_names { fragment: PEF_NO_BYTES, library: PEF_NO_BYTES, symbol: PEF_NO_BYTES };

/// A library that a fragment names, and that no fragment of the context serves: its name, the number of the fragment that names it,
/// and the versions of the library that this fragment was linked with. If `is_weak` is true, the fragment can be prepared without it.
///
/// If `is_found` is true, a fragment has the library's name, but its versions don't fit: `found_version` and
/// `found_old_def_version`. Otherwise no fragment has the name, and both are 0.
#[repr(C)]
#[derive(Clone, Copy, Debug)]
pub struct pef_missing {
    pub name: pef_bytes,
    pub fragment: usize,
    pub current_version: u32,
    pub old_imp_version: u32,
    pub found_version: u32,
    pub found_old_def_version: u32,
    pub is_weak: bool,
    pub is_found: bool,
}

/// A library that fragments of a context name, and that no fragment of the context has the name of. If `is_weak` is true, each of them can
/// be prepared without it. The name is a part of what was added.
#[repr(C)]
#[derive(Clone, Copy, Debug)]
pub struct pef_lacking {
    pub name: pef_bytes,
    pub is_weak: bool,
}

// What the symbols of a stub are: numbers, or memory.
pub const PEF_STUB_NUMBERS: u32 = 1;

pub const PEF_STUB_MEMORY: u32 = 2;

/// What a stub is made with: one of the two above, and what belongs to it.
///
/// Numbers: the first symbol is the absolute number `first`, and each later one `step` more. Memory: a symbol of code is a `word`, which
/// an emulator catches, and a `blr`; a transition vector leads to such code; and a symbol of data or TOC is `zeros` bytes of zeros.
#[repr(C)]
#[derive(Clone, Copy, Debug)]
pub struct pef_stub_options {
    /// The size of this struct, by which a later library knows an older program's.
    pub size: u32,
    pub values: u32,
    pub first: u32,
    pub step: u32,
    pub word: u32,
    pub zeros: u32,
}

// Numbers from F0000000 (hexadecimal) on, 16 apart; and memory with `sc` as the word, and 16 zeros.
pub const PEF_NUMBERED_STUBS: pef_stub_options = pef_stub_options {
    size: core::mem::size_of::<pef_stub_options>() as u32,
    values: PEF_STUB_NUMBERS,
    first: 0xF0000000,
    step: 16,
    word: 0,
    zeros: 0,
};

pub const PEF_STUBS_IN_MEMORY: pef_stub_options = pef_stub_options {
    size: core::mem::size_of::<pef_stub_options>() as u32,
    values: PEF_STUB_MEMORY,
    first: 0,
    step: 0,
    word: 0x44000002,
    zeros: 16,
};

/// A section that a preparation would place: the number of its fragment, and its number in the fragment's container. `kind` and
/// `share` are codes (PEF_KIND_.., PEF_SHARE_..). It takes `size` bytes, and its address has to be a multiple of `alignment`: both
/// count in the granule of the context. A section of 4 GB less a few bytes takes 2^32 bytes.
#[repr(C)]
#[derive(Clone, Copy, Debug)]
pub struct pef_new_section {
    pub fragment: usize,
    pub section: u32,
    pub kind: u8,
    pub share: u8,
    pub size: u64,
    pub alignment: u64,
}

/// A section in memory. `kind` is one of PEF_KIND_CODE and the others, `share` of PEF_SHARE_PROCESS and the others.
#[repr(C)]
#[derive(Clone, Copy, Debug)]
pub struct pef_fragment_section {
    pub address: u32,
    pub size: usize,
    pub kind: u8,
    pub share: u8,
}

/// The addresses at which a fragment is entered. The address of an entry that isn't there is 0.
#[repr(C)]
#[derive(Clone, Copy, Debug)]
pub struct pef_entries {
    pub init: u32,
    pub main: u32,
    pub term: u32,
    pub has_init: bool,
    pub has_main: bool,
    pub has_term: bool,
}

// The kinds of targets. A missing one is that of a weak import, or of an import from a weak library.
pub const PEF_TARGET_MISSING: u32 = 0;

pub const PEF_TARGET_ABSOLUTE: u32 = 1;

pub const PEF_TARGET_IN_SECTION: u32 = 2;

/// What an import means: one of the kinds above, and the address that was added wherever the import is relocated, which is 0
/// for a missing target, and the number for an absolute one. `fragment`, `section` and `offset` are 0 unless the target is in
/// a section.
#[repr(C)]
#[derive(Clone, Copy, Debug)]
pub struct pef_target {
    pub kind: u32,
    pub fragment: usize,
    pub section: u32,
    pub offset: u32,
    pub address: u32,
}

/// An export of a fragment: its name, its number, where it ends, and its class. `target.kind` is PEF_TARGET_IN_SECTION, also
/// if the section is another fragment's; or PEF_TARGET_ABSOLUTE; or PEF_TARGET_MISSING if it passes on an import that is
/// missing: its address is 0, and it isn't the number 0. If `is_reexport` is true, it passes on the import with the
/// number `import_number` of its fragment. The name is a part of the container.
#[repr(C)]
#[derive(Clone, Copy, Debug)]
pub struct pef_fragment_export {
    pub name: pef_bytes,
    pub number: usize,
    pub target: pef_target,
    pub import_number: usize,
    pub symbol_class: u8,
    pub is_reexport: bool,
}

/// Where an address is: the fragment, the number of its section, the offset there, and the nearest export. That is, of the
/// fragment's exports in this section whose offset isn't greater, the one with the greatest offset, and the first in the table if
/// several have it. If there is none, `has_nearest` is false, and `nearest` has an empty name and zeros. `connection` is the lowest
/// number of an open connection whose closure has the fragment, for the calls that ask for one.
#[repr(C)]
#[derive(Clone, Copy, Debug)]
pub struct pef_location {
    pub fragment: usize,
    pub section: usize,
    pub connection: u32,
    pub offset: u32,
    pub has_nearest: bool,
    pub nearest: pef_fragment_export,
}

extern "C" {
    /// Links a script: writes its container to the front of `buffer`.
    ///
    /// Returns PEF_OK, and stores the container's length in `*written`; or PEF_ROOM_TOO_SMALL, and stores the length that is
    /// needed in `*written`; or the script's first refusal, 41 to 49, and stores the number of its line in `*line`, counted
    /// from 1; or PEF_OUT_OF_MEMORY. `*line` is 0 in all other cases. Unless PEF_OK is returned, `buffer` is left unchanged;
    /// and after a refusal `*written` is too.
    ///
    /// The container has a shortest relocation program without repeats for each section, so linking is more work than reading.
    /// To know the length first, a call with a small buffer does all of that work.
    pub fn pef_link(script: *const u8, script_length: usize, buffer: *mut u8, buffer_length: usize, written: *mut usize, line: *mut usize) -> u32;

    /// Gives the certificates of a script: writes the lines that `pef distances` prints to the front of `buffer`, with no zero byte at their
    /// end. Each certificate has the relocation program that `pef_link()` writes for a section, and proves that no program without repeats is
    /// shorter.
    ///
    /// Returns PEF_OK, and stores the length of the lines in `*written`; or PEF_ROOM_TOO_SMALL, and stores the length that is needed in
    /// `*written`; or the script's first refusal with its line, or PEF_OUT_OF_MEMORY, as `pef_link()` does. `*line`, `buffer` and `*written`
    /// are changed and left unchanged as by `pef_link()`.
    ///
    /// This is as much work as linking, and a call with a small buffer does all of it. The lines can be far longer than the container.
    pub fn pef_distances(script: *const u8, script_length: usize, buffer: *mut u8, buffer_length: usize, written: *mut usize, line: *mut usize) -> u32;

    /// Lists a container: writes the lines that `pef list` prints to the front of `buffer`, with no zero byte at their end.
    ///
    /// Returns PEF_OK, and stores the length of the lines in `*written`; or PEF_ROOM_TOO_SMALL, and stores the length that is
    /// needed in `*written`; or the first refusal, 1 to 20 or 31 to 36; or PEF_OUT_OF_MEMORY, if there is none. Unless PEF_OK is
    /// returned, `buffer` is left unchanged; and after a refusal `*written` is too.
    pub fn pef_list(container: *const u8, container_length: usize, buffer: *mut u8, buffer_length: usize, written: *mut usize) -> u32;

    /// Opens the listing of a container, to be read by `pef_list_next()`. A listing that is open already is freed first.
    ///
    /// `container` is kept, not copied: it has to stay, unchanged, until `pef_list_free()` of this listing returns.
    ///
    /// Returns PEF_OK; or the first refusal, 1 to 20 or 31 to 36, or PEF_OUT_OF_MEMORY if there is none, and then the listing isn't open.
    pub fn pef_list_open(listing: *mut pef_listing, container: *const u8, container_length: usize) -> u32;

    /// Writes the next bytes of the lines that `pef list` prints to the front of `buffer`, as many as fit. Each line is made once,
    /// whatever the size of the buffer, and the listing keeps no more of them in memory than a buffer, a few kilobytes and a line. A
    /// buffer of 64 KB is fastest: larger ones leave the processor's cache.
    ///
    /// Returns PEF_OK, and stores the number of bytes in `*written`: it is less than `buffer_length` only at the end of the lines, and
    /// 0 after it. Or returns PEF_NOT_OPEN, if the listing isn't open; or PEF_OUT_OF_MEMORY, and then the next call goes on where
    /// this one began. After both `buffer` and `*written` are left unchanged.
    pub fn pef_list_next(listing: *mut pef_listing, buffer: *mut u8, buffer_length: usize, written: *mut usize) -> u32;

    /// Frees a listing. It may be opened again. A listing that isn't open stays as it is, so one may be freed twice.
    ///
    /// A program that includes this header may also free NULL, which does nothing.
    pub fn pef_list_free(listing: *mut pef_listing);

    /// Gives the name of a number that a call returned or of a note, as "BadTag". PEF_OK has none.
    ///
    /// Returns PEF_OK, and stores the name in `*name`: it is valid until the program ends. Or returns PEF_NOT_THERE, if nothing
    /// has the number, and leaves `*name` unchanged.
    pub fn pef_name(number: u32, name: *mut pef_bytes) -> u32;

    /// Gives one or two sentences of ASCII on a number that a call returned or on a note: what it means, and what to do.
    ///
    /// Returns and stores as `pef_name()` does: each number that has a name has help.
    pub fn pef_help(number: u32, help: *mut pef_bytes) -> u32;

    /// Finds the first error of a container, in the order in which `pef_list()` reports them. Every call that reads a container reports
    /// it, if it gets so far. It allocates nothing.
    ///
    /// Returns PEF_OK if there is none, and stores no place in `*place`. Or returns the error, 1 to 20 or 31 to 36, and stores its
    /// place.
    pub fn pef_container_place(container: *const u8, container_length: usize, place: *mut pef_place) -> u32;

    /// Finds the first error of a script.
    ///
    /// Returns PEF_OK if there is none; or the error, 41 to 49, and stores the place of the word in `*place`, and in `*earlier` the number
    /// of the earlier line that the error is about, or 0: for PEF_SCRIPT_OVERLAP the line whose word is overlapped, for PEF_SCRIPT_OUT_OF_ORDER the
    /// line that must not come first, for PEF_SCRIPT_REPEATED_NAME the line that has the name, and for PEF_SCRIPT_UNKNOWN_NAME a line that declares
    /// nearly the name. Or returns PEF_OUT_OF_MEMORY. In all other cases it stores no place, and 0.
    pub fn pef_script_place(script: *const u8, script_length: usize, place: *mut pef_place, earlier: *mut usize) -> u32;

    /// Finds all errors of a container, 1 to 39, and then what is odd about it, except what `pef_more_notes()` finds. It reads them from number
    /// `from` on into the first of `places`, and stores how many they were in `*count`: as many as there are from there on, or as there are
    /// places. The other places are left unchanged. Returns PEF_OK. It allocates nothing.
    ///
    /// Packed data is expanded and relocation programs are run, without keeping what they make. So a container without errors is refused
    /// by no preparation, as far as its own bytes are concerned. If its programs or its packed data ask for too much, a note says
    /// from which one on they weren't verified. An error that is about no field is at the beginning of the container.
    ///
    /// Errors come in the order of `pef_list()`: if it reports one, that is the first here. Packed data (21 to 25) and what programs would do
    /// (37 to 39) come after all that `pef_list()` reads. A preparation has an order of its own: it fills all sections before it reads a program,
    /// so of a container with errors in both it reports packed data, and `pef_findings()` has the program first.
    ///
    /// Each call reads the whole container, so read many at once.
    pub fn pef_findings(container: *const u8, container_length: usize, from: usize, places: *mut pef_finding, place_count: usize, count: *mut usize) -> u32;

    /// Finds the notes that need memory, PEF_NOTE_TRAILING_BYTES, PEF_NOTE_OVERLAP, PEF_NOTE_UNOWNED_BYTES and
    /// PEF_NOTE_WORD_RELOCATED_TWICE, and reads and counts them as `pef_findings()` does. If programs name too many words, there is also
    /// PEF_NOTE_PROGRAMS_UNVERIFIED.
    ///
    /// Returns PEF_OK; or PEF_OUT_OF_MEMORY, and leaves `places` and `*count` unchanged.
    pub fn pef_more_notes(container: *const u8, container_length: usize, from: usize, places: *mut pef_finding, place_count: usize, count: *mut usize) -> u32;

    /// Makes the report on a file, to be read by `pef_report_next()`: the object of JSON that `pef inspect --json` prints of it, on one line
    /// with its end. docs/INSPECT.md says what it has. `path` is what the object calls the file. A report that is open already is freed
    /// first. Neither `path` nor `file` is kept.
    ///
    /// The whole text is kept in memory until `pef_report_free()`. If there is too little memory to look into a container, its object has
    /// the error 99.
    ///
    /// Returns PEF_OK; or PEF_OUT_OF_MEMORY, and then the report isn't open.
    pub fn pef_report_open(report: *mut pef_report, path: *const u8, path_length: usize, file: *const u8, file_length: usize) -> u32;

    /// Makes the object that such a report has for a container, of bytes that are looked at as a container whatever they are. The offsets
    /// are those in these bytes, and there is no end of a line. The bytes aren't kept.
    ///
    /// Returns PEF_OK; or PEF_OUT_OF_MEMORY, and then the report isn't open.
    pub fn pef_report_open_container(report: *mut pef_report, container: *const u8, container_length: usize) -> u32;

    /// Finds the first container in a file, by the places that `pef_find_containers()` gives. It allocates nothing.
    ///
    /// Returns PEF_OK, and stores it in `*found`; or PEF_NOT_THERE if there is none, and stores the end of the file.
    pub fn pef_first_container(file: *const u8, file_length: usize, found: *mut pef_found_container) -> u32;

    /// Goes on to the next container. It allocates nothing.
    ///
    /// Returns PEF_OK, and stores it in `*found`; or PEF_NOT_THERE if there is none, and stores the end of the file. If `*found` is at the
    /// end, it stays as it is.
    pub fn pef_next_container(file: *const u8, file_length: usize, found: *mut pef_found_container) -> u32;

    /// Makes the report up to its containers. `path` is what the object calls the file.
    pub fn pef_report_open_head(report: *mut pef_report, path: *const u8, path_length: usize, file: *const u8, file_length: usize) -> u32;

    /// Makes the object of a container as the report has it, after a comma unless it is the first. It has no bytes if the container isn't
    /// inspected, because the report would cost too much.
    pub fn pef_report_open_found(report: *mut pef_report, file: *const u8, file_length: usize, found: *const pef_found_container) -> u32;

    /// Makes the report after its containers. `end` is what `pef_next_container()` stored last, or `pef_first_container()` if there is none.
    pub fn pef_report_open_end(report: *mut pef_report, file: *const u8, file_length: usize, end: *const pef_found_container) -> u32;

    /// Makes the beginning of a container's object, as an object: the first `most` rows of each kind or all if there are fewer, without their
    /// instructions, and of the errors and notes in their order the first `most`. It has no bytes if the container isn't inspected.
    pub fn pef_report_open_excerpt(report: *mut pef_report, file: *const u8, file_length: usize, found: *const pef_found_container, most: u32) -> u32;

    /// Makes the objects of rows, or of those that there are, as a container's object has them in the list of their kind: after a comma,
    /// unless it is row 0. Rows from an excerpt's `most` on go on where the excerpt ends.
    ///
    /// Returns what the others do; or PEF_NOT_THERE if there is no such kind, and then the report isn't open.
    pub fn pef_report_open_rows(report: *mut pef_report, file: *const u8, file_length: usize, rows: *const pef_row_range) -> u32;

    /// Writes the next bytes of a report to the front of `buffer`, as many as fit.
    ///
    /// Returns PEF_OK, and stores the number of bytes in `*written`: it is less than `buffer_length` only at the end of the report, and
    /// 0 after it. Or returns PEF_NOT_OPEN, if the report isn't open, and then `buffer` and `*written` are left unchanged. It allocates
    /// nothing.
    pub fn pef_report_next(report: *mut pef_report, buffer: *mut u8, buffer_length: usize, written: *mut usize) -> u32;

    /// Frees a report. It may be opened again. A report that isn't open stays as it is, so one may be freed twice.
    ///
    /// A program that includes this header may also free NULL, which does nothing.
    pub fn pef_report_free(report: *mut pef_report);

    /// Reads a container's header. Refusals are 1 to 10.
    pub fn pef_header(container: *const u8, container_length: usize, header: *mut pef_header) -> u32;

    /// Reads a section by its number, counted from 0, and stores its raw bytes, which are a part of the container, in `*raw`.
    ///
    /// Returns PEF_NOT_THERE past the last section.
    pub fn pef_section(container: *const u8, container_length: usize, number: usize, section: *mut pef_section, raw: *mut pef_bytes) -> u32;

    /// Gives a section's name, which is a part of the container.
    ///
    /// Returns PEF_NOT_THERE past the last section, and if the section has no name.
    pub fn pef_section_name(container: *const u8, container_length: usize, number: usize, name: *mut pef_bytes) -> u32;

    /// Expands the raw bytes of a section of kind PEF_KIND_PACKED, until `out` is full: its length is the section's
    /// unpacked_size. Refusals are 21 to 25, after which the contents of `out` are unspecified.
    pub fn pef_expand(packed: *const u8, packed_length: usize, out: *mut u8, out_length: usize) -> u32;

    /// Reads the header of a container's loader section. Refusals are 1 to 20, in this call and in those below.
    pub fn pef_loader(container: *const u8, container_length: usize, loader: *mut pef_loader) -> u32;

    /// Read the libraries, imports, relocation headers and exports from number `from` on into the first of `places`, and store how
    /// many they were in `*count`: as many as there are from there on, or as there are places. The other places are left unchanged.
    /// Names and instructions are parts of the container.
    ///
    /// Each call reads the whole loader section, so read many at once: then n rows cost no more than n of these.
    pub fn pef_libraries(container: *const u8, container_length: usize, from: usize, places: *mut pef_library, place_count: usize, count: *mut usize) -> u32;

    /// See [`pef_libraries()`].
    pub fn pef_imports(container: *const u8, container_length: usize, from: usize, places: *mut pef_import, place_count: usize, count: *mut usize) -> u32;

    /// See [`pef_libraries()`].
    pub fn pef_relocations(container: *const u8, container_length: usize, from: usize, places: *mut pef_relocation, place_count: usize, count: *mut usize) -> u32;

    /// See [`pef_libraries()`].
    pub fn pef_exports(container: *const u8, container_length: usize, from: usize, places: *mut pef_export, place_count: usize, count: *mut usize) -> u32;

    /// Reads the additions of the program of relocation header `header` from number `from` on into the first of `places`, in the
    /// order in which the program makes them, and stores how many they were in `*count`: as many as there are from there on, or as
    /// there are places. The other places are left unchanged. The numbers of headers are those of `pef_relocations()`.
    ///
    /// Nothing is asked of words, sections and imports: a program may name some that don't exist, which refuses the preparation.
    /// Refusals are 1 to 20, and 31 to 36 for the program. Returns PEF_NOT_THERE past the last header. Each call runs the program
    /// from its start up to the last of `places`, so read many at once. A program can make up to 17,179,869,184 additions.
    pub fn pef_fixups(container: *const u8, container_length: usize, header: usize, from: usize, places: *mut pef_fixup, place_count: usize, count: *mut usize) -> u32;

    /// Reads the first export with this name into `*found`, and stores its number, which is that of `pef_exports()`, in `*number`.
    /// Names are compared byte by byte.
    ///
    /// Returns PEF_NOT_THERE, if no export has the name. Each call reads the whole loader section, so to look up many names, read
    /// all exports once.
    pub fn pef_export_named(container: *const u8, container_length: usize, name: *const u8, name_length: usize, number: *mut usize, found: *mut pef_export) -> u32;

    /// Reads the first import with this name into `*found`, and stores its number, which is that of `pef_imports()`, in `*number`.
    ///
    /// Returns PEF_NOT_THERE, if no import has the name. Each call reads the whole loader section, and then one import after the
    /// other, as they have no hash table.
    pub fn pef_import_named(container: *const u8, container_length: usize, name: *const u8, name_length: usize, number: *mut usize, found: *mut pef_import) -> u32;

    /// Reads the header of a container. Returns PEF_TOO_SHORT or PEF_BAD_TAG if the bytes have none, in this call and in those below. If
    /// the architecture is another one, such as PEF_ARCHITECTURE_68K, the container isn't damaged, but one of another machine.
    pub fn pef_partial_header(container: *const u8, container_length: usize, header: *mut pef_header) -> u32;

    /// Reads a section, and stores its raw bytes in `*raw`, as far as they are in the container: they are fewer than `packed_size` if the
    /// section extends past the end. Returns PEF_NOT_THERE past the last section, and if the section's header isn't in the bytes.
    pub fn pef_partial_section(container: *const u8, container_length: usize, number: usize, section: *mut pef_section, raw: *mut pef_bytes) -> u32;

    /// Gives a section's name. Returns PEF_NOT_THERE as `pef_partial_section()` does, and if the section has no name.
    pub fn pef_partial_section_name(container: *const u8, container_length: usize, number: usize, name: *mut pef_bytes) -> u32;

    /// Reads the header of a loader section: the first that isn't instantiated, or if each one is, the first of all. Its counts are those that
    /// it declares, however many rows are there. Returns PEF_LOADER_SHORT if there is no loader section, or it has no header, in this call and
    /// in those below.
    pub fn pef_partial_loader(container: *const u8, container_length: usize, loader: *mut pef_loader) -> u32;

    /// Read the libraries, imports, relocation headers and exports that are in the bytes, as `pef_libraries()` and the others do. A name that
    /// can't be read has no bytes, and so have instructions that extend past the loader section. Exports are there if the slots, keys and
    /// rows of their table are.
    pub fn pef_partial_libraries(container: *const u8, container_length: usize, from: usize, places: *mut pef_library, place_count: usize, count: *mut usize) -> u32;

    /// See [`pef_partial_libraries()`].
    pub fn pef_partial_imports(container: *const u8, container_length: usize, from: usize, places: *mut pef_import, place_count: usize, count: *mut usize) -> u32;

    /// See [`pef_partial_libraries()`].
    pub fn pef_partial_relocations(container: *const u8, container_length: usize, from: usize, places: *mut pef_relocation, place_count: usize, count: *mut usize) -> u32;

    /// See [`pef_partial_libraries()`].
    pub fn pef_partial_exports(container: *const u8, container_length: usize, from: usize, places: *mut pef_export, place_count: usize, count: *mut usize) -> u32;

    /// Reads the additions of the program of relocation header `header`, as `pef_fixups()` does. Returns PEF_NOT_THERE past the last header
    /// that is in the bytes, and if its instructions extend past the loader section. Errors of the program are 31 to 36.
    pub fn pef_partial_fixups(container: *const u8, container_length: usize, header: usize, from: usize, places: *mut pef_fixup, place_count: usize, count: *mut usize) -> u32;

    /// Returns what a file is: one of the numbers above.
    pub fn pef_file_kind(file: *const u8, file_length: usize) -> u32;

    /// Reads the forks of a file. Returns PEF_OK, or the error of its header: PEF_APPLE_HEADER_CUT or PEF_BAD_APPLE_VERSION.
    pub fn pef_forks(file: *const u8, file_length: usize, forks: *mut pef_forks) -> u32;

    /// Reads the header and the map of a resource fork. Errors are 87 and 88, in this call and in the two below.
    pub fn pef_resource_map(fork: *const u8, fork_length: usize, map: *mut pef_resource_map) -> u32;

    /// Reads the resources from number `from` on into the first of `places`, and stores how many they were in `*count`: as many as there
    /// are from there on, or as there are places. The other places are left unchanged. Each call passes over the rows before `from`.
    pub fn pef_resources(fork: *const u8, fork_length: usize, from: usize, places: *mut pef_resource, place_count: usize, count: *mut usize) -> u32;

    /// Reads the resource with a type and an id. Returns PEF_NOT_THERE if there is none.
    pub fn pef_find_resource(fork: *const u8, fork_length: usize, r#type: u32, id: i16, resource: *mut pef_resource) -> u32;

    /// Reads the members of a table of fragments as `pef_resources()` reads resources, with their containers in a data fork. The table is the
    /// bytes of the resource `cfrg` 0. Errors are PEF_FRAGMENT_TABLE_CUT and PEF_BAD_FRAGMENT_TABLE.
    pub fn pef_members(table: *const u8, table_length: usize, data_fork: *const u8, data_fork_length: usize, from: usize, places: *mut pef_member, place_count: usize, count: *mut usize) -> u32;

    /// Finds the places of some bytes where a container begins: it stores their offsets from number `from` on in the first of `places`, and
    /// how many they were in `*count`. Returns PEF_OK.
    pub fn pef_find_containers(bytes: *const u8, length: usize, from: usize, places: *mut usize, place_count: usize, count: *mut usize) -> u32;

    /// Gives the container of the fragment with this name in a file: of the first member of the table that has the name and isn't for
    /// CFM-68K. The names are compared byte by byte.
    ///
    /// Returns PEF_OK; or the first error of what it reads, 82 to 98; or PEF_NO_CONTAINER if there is no such fragment, or its container is
    /// neither in the data fork nor in a resource. A container isn't tested.
    pub fn pef_file_container(file: *const u8, file_length: usize, name: *const u8, name_length: usize, container: *mut pef_bytes) -> u32;

    /// Does the same by the bytes of both forks.
    pub fn pef_fork_container(data_fork: *const u8, data_fork_length: usize, resource_fork: *const u8, resource_fork_length: usize, name: *const u8, name_length: usize, container: *mut pef_bytes) -> u32;

    /// Gives the container with a number, from 0, among those of `pef_find_containers()`, with all bytes after it up to the end of its member
    /// of `cfrg` 0, its resource or its fork, or of the bytes if it begins in no fork. Returns PEF_OK, or PEF_NO_CONTAINER past the last one.
    pub fn pef_numbered_container(bytes: *const u8, length: usize, number: usize, container: *mut pef_bytes) -> u32;

    /// Opens a context without fragments. Sections are placed from address 00010000 on, and none passes `limit`; `pef load`
    /// has the limit 10000000 (hexadecimal). A context that is open already is freed first.
    ///
    /// Returns PEF_OK; or PEF_OUT_OF_MEMORY, and then the context isn't open.
    pub fn pef_open(context: *mut pef_context, limit: u32) -> u32;

    /// Opens a context without fragments, with options. A context that is open already is freed first.
    ///
    /// Returns PEF_OK; or PEF_BAD_OPTIONS, if `size` isn't that of the struct in this library; or PEF_BAD_GRANULE; or
    /// PEF_OUT_OF_MEMORY, and then the context isn't open. After the other two nothing is changed.
    pub fn pef_open_with(context: *mut pef_context, options: *const pef_options) -> u32;

    /// Returns the version of the library that runs. It is PEF_VERSION_NUMBER of the header that belongs to it.
    pub fn pef_version() -> u32;

    /// Frees a context and everything that it owns. It may be opened again. A context that isn't open stays as it is, so one may be
    /// freed twice. When `pef_free()` returns, the library has nothing any more of what `pef_add()` took.
    ///
    /// A program that includes this header may also free NULL, which does nothing.
    pub fn pef_free(context: *mut pef_context);

    /// Adds a fragment: its name, and the bytes of its container. They are read by each preparation, and refused then. If two
    /// fragments have the same name, the first is used.
    ///
    /// `name` and `bytes` are kept, not copied: both have to stay, unchanged, until `pef_remove()` of this fragment or `pef_free()` of this
    /// context returns. From then on they are the caller's again. Names that the library gave are parts of them.
    ///
    /// Fragments may be added at any time, also while connections are open. Those stay as they are. A fragment whose name isn't there
    /// gets the first number that is free, and any other the number after all others, so that the first with a name stays the first.
    ///
    /// Returns PEF_OK; or PEF_ADDED_TOO_LATE, if a fragment of an open connection has a weak library of this name, and was
    /// prepared without it; or PEF_STORE_FULL, if the context has PEF_MAX_FRAGMENTS fragments; or PEF_OUT_OF_MEMORY. The
    /// context is changed only if PEF_OK is returned.
    pub fn pef_add(context: *mut pef_context, name: *const u8, name_length: usize, bytes: *const u8, bytes_length: usize) -> u32;

    /// Adds a fragment as `pef_add()` does, if none has its name. Otherwise returns PEF_NAME_TAKEN, and the context is unchanged: a second
    /// fragment of a name is never used as long as the first one is there.
    pub fn pef_add_new(context: *mut pef_context, name: *const u8, name_length: usize, bytes: *const u8, bytes_length: usize) -> u32;

    /// Removes the first fragment of a name. If another one has the name, that is the first then. The numbers of the others don't change,
    /// and neither do open connections. The name and the bytes that were added are the caller's again.
    ///
    /// Returns PEF_OK; or PEF_ROOT_MISSING, if no fragment has the name; or PEF_STILL_PRESENT, if the fragment is present; or
    /// PEF_STILL_NAMED, if a fragment of an open connection names it as a library: a weak one, whose version didn't fit; or
    /// PEF_OUT_OF_MEMORY. The context is changed only if PEF_OK is returned.
    pub fn pef_remove(context: *mut pef_context, name: *const u8, name_length: usize) -> u32;

    /// Takes `size` addresses from `address` on out of use, until pef_unreserve gives them back: no section is placed in them. The
    /// range begins at the multiple of 16 at or below `address`, and ends at the one at or above its end. A size of 0 takes
    /// nothing.
    ///
    /// Returns PEF_OK; or PEF_NO_ROOM, if the range meets a section in memory or another range, or passes the last address of 32
    /// bits; or PEF_OUT_OF_MEMORY. The context is changed only if PEF_OK is returned.
    pub fn pef_reserve(context: *mut pef_context, address: u32, size: u32) -> u32;

    /// Gives back a range that pef_reserve took out of use for the same numbers, or for others with the same ends: sections can
    /// be placed there again. A size of 0 gives nothing back.
    ///
    /// Returns PEF_OK; or PEF_NOT_THERE, if the addresses aren't exactly such a range, also if they are a part of one or several.
    /// The context is changed only if PEF_OK is returned.
    pub fn pef_unreserve(context: *mut pef_context, address: u32, size: u32) -> u32;

    /// Gives the libraries that are missing for the fragment of a name and for all that it needs, in the order in which `pef_prepare()`
    /// looks for them, each name once: those from number `from` on in the first of `places`, and how many they were in `*count`, which
    /// is as many as there are from there on, or as there are places. The other places are left unchanged. Weak ones are among them.
    ///
    /// Ask before `pef_prepare()`, add what you have, and ask again, since what was added may name other libraries. If all that is missing
    /// then is weak, the preparation isn't refused for a library. Weak libraries have to be added now: later `pef_add()` returns
    /// PEF_ADDED_TOO_LATE.
    ///
    /// Returns PEF_OK; or PEF_ROOT_MISSING, if no fragment has the name; or the first refusal (1 to 20) of a fragment that can't be read;
    /// or PEF_OUT_OF_MEMORY. If it isn't PEF_OK, `*names` has the names that belong to it, and `places` and `*count` are unchanged. What was
    /// read is kept for later calls; otherwise the context is unchanged.
    pub fn pef_missing(context: *mut pef_context, name: *const u8, name_length: usize, from: usize, places: *mut pef_missing, place_count: usize, count: *mut usize, names: *mut pef_names) -> u32;

    /// Gives what `pef_missing()` does. If it returns an error other than PEF_NOT_OPEN, it also stores in `*place` where the error is, in the
    /// container of the fragment that `*names` names. Otherwise `*place` is left unchanged.
    pub fn pef_missing_with_place(context: *mut pef_context, name: *const u8, name_length: usize, from: usize, places: *mut pef_missing, place_count: usize, count: *mut usize, names: *mut pef_names, place: *mut pef_place) -> u32;

    /// Prepares the fragment of a name and all that it needs: places them, fills them and relocates them, unless they are
    /// present already.
    ///
    /// Returns PEF_OK, and stores the number of the connection in `*connection`. Or returns the first refusal (1 to 39, 60 to
    /// 70, or 75) or PEF_OUT_OF_MEMORY, stores its names in `*names`, and leaves the context and `*connection` unchanged. Names
    /// are parts of what was added.
    pub fn pef_prepare(context: *mut pef_context, name: *const u8, name_length: usize, connection: *mut u32, names: *mut pef_names) -> u32;

    /// Prepares as `pef_prepare()` does. If it returns an error other than PEF_NOT_OPEN, it also stores in `*place` where the error is, in
    /// the container of the fragment that `*names` names. Otherwise `*place` is left unchanged.
    pub fn pef_prepare_with_place(context: *mut pef_context, name: *const u8, name_length: usize, connection: *mut u32, names: *mut pef_names, place: *mut pef_place) -> u32;

    /// Gives the sections that `pef_prepare()` would place for a name, in the order in which it places them: those from number `from` on in
    /// the first of `places`, and how many they were in `*count`, which is as many as there are from there on, or as there are places. The
    /// other places are left unchanged. If all that the fragment needs is present, there are none.
    ///
    /// Returns PEF_OK; or an error that `pef_prepare()` returns before it places anything (1 to 20, 60 to 66, 68 to 70, or 75), or
    /// PEF_OUT_OF_MEMORY. If it isn't PEF_OK, `*names` has the names that belong to it, and `places` and `*count` are unchanged. What was
    /// read is kept for later calls; otherwise the context is unchanged.
    pub fn pef_new_sections(context: *mut pef_context, name: *const u8, name_length: usize, from: usize, places: *mut pef_new_section, place_count: usize, count: *mut usize, names: *mut pef_names) -> u32;

    /// Gives what `pef_new_sections()` does, and the place of an error as `pef_missing_with_place()` does.
    pub fn pef_new_sections_with_place(context: *mut pef_context, name: *const u8, name_length: usize, from: usize, places: *mut pef_new_section, place_count: usize, count: *mut usize, names: *mut pef_names, place: *mut pef_place) -> u32;

    /// Prepares as `pef_prepare_with_place()` does, but places the sections at these addresses: there is one for each section that
    /// `pef_new_sections()` gives, in its order. An address has to be a multiple of the section's alignment and 00010000 (hex) or above. The
    /// bytes that the section takes have to be free, and below the limit.
    ///
    /// Returns what `pef_prepare_with_place()` returns. PEF_WRONG_ADDRESS_COUNT, if there are more or fewer addresses than sections, comes
    /// after PEF_TOO_MANY_STEPS_IN_ALL and before PEF_NO_ROOM, which is for the first section that can't lie at its address.
    pub fn pef_prepare_at(context: *mut pef_context, name: *const u8, name_length: usize, addresses: *const u32, address_count: usize, connection: *mut u32, names: *mut pef_names, place: *mut pef_place) -> u32;

    /// Closes a connection. Fragments that no other open connection needs are no longer present. The number of the connection isn't
    /// given again.
    ///
    /// Returns PEF_OK; or PEF_BAD_CONNECTION, if no open connection has this number, and changes nothing.
    pub fn pef_close(context: *mut pef_context, connection: u32) -> u32;
}

/// Gives the libraries that a context lacks, whichever fragment is prepared: each name once, in the order of the fragments and of their
/// entries, those from number `from` on in the first of `places`, and how many they were in `*count`, which is as many as there are from
/// there on, or as there are places. The other places are left unchanged. Fragments that can't be read are passed by.
///
/// Returns PEF_OK; or PEF_OUT_OF_MEMORY, and leaves `places` and `*count` unchanged. The context is unchanged.
#[inline]
pub unsafe fn pef_lacking(context: *const pef_context, from: usize, places: *mut pef_lacking, place_count: usize, count: *mut usize) -> u32 {
    let mut copy = *context;
    exported::pef_lacking(&mut copy, from, places, place_count, count)
}

/// Makes the stub of a library that nobody has: a container that exports what the fragments of the context import from it, each name
/// once, with versions that fit each of them. Its bytes are written to the front of `buffer`. docs/RULES.md, "Stubs", says what it has.
/// Fragments that can't be read are passed by.
///
/// A stub isn't kept: `pef_add()` adds it under the library's name, with bytes that stay. Then the library isn't lacking, and a preparation
/// isn't refused for it. `pef_exports()` of the stub gives its symbols with their classes and values, which say what a number in memory
/// means. The numbers of the next stub go on after those of this one if its `first` is `*symbol_count` steps more.
///
/// Returns PEF_OK, and stores the stub's length in `*written`; or PEF_ROOM_TOO_SMALL, and stores the length that is needed; and both
/// times stores how many symbols it exports in `*symbol_count`. Or returns PEF_BAD_OPTIONS, if `size` isn't that of the struct in this
/// library, or `values` is neither of the two; or why there is no stub: PEF_TOO_MANY_SYMBOLS, PEF_LONG_NAME, PEF_TOO_MANY_NAME_BYTES,
/// PEF_PAST_LAST_NUMBER, and of a stub in memory PEF_UNSPELLABLE_NAME or PEF_TOO_MANY_STUB_BYTES; or PEF_OUT_OF_MEMORY; and leaves both
/// unchanged. Unless PEF_OK is returned, `buffer` is left unchanged. The context is unchanged.
#[inline]
pub unsafe fn pef_stub(context: *const pef_context, library: *const u8, library_length: usize, options: *const pef_stub_options, buffer: *mut u8, buffer_length: usize, written: *mut usize, symbol_count: *mut usize) -> u32 {
    let mut copy = *context;
    exported::pef_stub(&mut copy, library, library_length, options, buffer, buffer_length, written, symbol_count)
}

/// Gives the fragments that the preparation of a connection placed, because they weren't present before, in the order in
/// which fragments are initialized. Copy exactly these into the machine, and initialize exactly these: the others of the
/// closure were there already, and may have run since.
///
/// Returns and stores what `pef_fragments()` does.
#[inline]
pub unsafe fn pef_new_fragments(context: *const pef_context, connection: u32, places: *mut usize, place_count: usize, count: *mut usize) -> u32 {
    let mut copy = *context;
    exported::pef_new_fragments(&mut copy, connection, places, place_count, count)
}

/// Gives the fragments that `pef_close()` of a connection would release, because no other open connection needs them, the last
/// to be initialized first. Call their termination routines in this order, and then `pef_close()`.
///
/// Returns and stores what `pef_fragments()` does; or returns PEF_OUT_OF_MEMORY, and leaves `places` and `*count` unchanged.
#[inline]
pub unsafe fn pef_released_by(context: *const pef_context, connection: u32, places: *mut usize, place_count: usize, count: *mut usize) -> u32 {
    let mut copy = *context;
    exported::pef_released_by(&mut copy, connection, places, place_count, count)
}

/// Give the fragments of a connection's closure: the first in closure order, in which the fragment that was prepared is the
/// last; the other in the order in which the fragments are initialized.
///
/// Return PEF_OK, and store the numbers in the first of `places`; or PEF_ROOM_TOO_SMALL, if there are fewer places than
/// fragments; and both times store how many fragments there are in `*count`. Or return PEF_NOT_THERE, if the connection
/// isn't open. PEF_MAX_FRAGMENTS places are enough.
#[inline]
pub unsafe fn pef_fragments(context: *const pef_context, connection: u32, places: *mut usize, place_count: usize, count: *mut usize) -> u32 {
    let mut copy = *context;
    exported::pef_fragments(&mut copy, connection, places, place_count, count)
}

/// See [`pef_fragments()`].
#[inline]
pub unsafe fn pef_init_order(context: *const pef_context, connection: u32, places: *mut usize, place_count: usize, count: *mut usize) -> u32 {
    let mut copy = *context;
    exported::pef_init_order(&mut copy, connection, places, place_count, count)
}

/// Gives a fragment's name, which is what was added. It needn't be present. Returns PEF_NOT_THERE if no fragment has this number: past the
/// last one, and also before it if the fragment was removed.
#[inline]
pub unsafe fn pef_fragment_name(context: *const pef_context, fragment: usize, name: *mut pef_bytes) -> u32 {
    let mut copy = *context;
    exported::pef_fragment_name(&mut copy, fragment, name)
}

/// Gives the first number from `from` on that a fragment has, present or not. So this is a loop over all fragments of a context:
///
/// ```c
/// for (size_t number = 0; pef_next_fragment(&context, number, &number) == PEF_OK; number++)
///
/// ```
/// Returns PEF_OK; or PEF_NOT_THERE if no fragment has such a number.
#[inline]
pub unsafe fn pef_next_fragment(context: *const pef_context, from: usize, fragment: *mut usize) -> u32 {
    let mut copy = *context;
    exported::pef_next_fragment(&mut copy, from, fragment)
}

/// Tells whether the fragment of a name is present: the closure of an open connection has it. If several fragments have the same
/// name, the first is used. If none has it, false is stored.
#[inline]
pub unsafe fn pef_is_present(context: *const pef_context, name: *const u8, name_length: usize, is_present: *mut bool) -> u32 {
    let mut copy = *context;
    exported::pef_is_present(&mut copy, name, name_length, is_present)
}

/// Counts the sections that a fragment has in memory: none, if it isn't present.
#[inline]
pub unsafe fn pef_fragment_sections(context: *const pef_context, fragment: usize, count: *mut usize) -> u32 {
    let mut copy = *context;
    exported::pef_fragment_sections(&mut copy, fragment, count)
}

/// Reads where a section lies. Returns PEF_NOT_THERE, if the fragment has no such section in memory, or the connection
/// isn't open, or its closure lacks the fragment.
#[inline]
pub unsafe fn pef_fragment_section(context: *const pef_context, connection: u32, fragment: usize, number: usize, section: *mut pef_fragment_section) -> u32 {
    let mut copy = *context;
    exported::pef_fragment_section(&mut copy, connection, fragment, number, section)
}

/// Copies a section's bytes to the front of `buffer`, as the memory of a machine.
///
/// Returns PEF_OK; or PEF_ROOM_TOO_SMALL; and both times stores the section's size in `*written`. Or returns PEF_NOT_THERE,
/// if the fragment has no such section in memory.
#[inline]
pub unsafe fn pef_fragment_bytes(context: *const pef_context, fragment: usize, number: usize, buffer: *mut u8, buffer_length: usize, written: *mut usize) -> u32 {
    let mut copy = *context;
    exported::pef_fragment_bytes(&mut copy, fragment, number, buffer, buffer_length, written)
}

/// Reads a fragment's entries. Returns PEF_NOT_THERE, if the connection isn't open, or its closure lacks the fragment.
#[inline]
pub unsafe fn pef_fragment_entries(context: *const pef_context, connection: u32, fragment: usize, entries: *mut pef_entries) -> u32 {
    let mut copy = *context;
    exported::pef_fragment_entries(&mut copy, connection, fragment, entries)
}

/// Gives the address of a fragment's first export of a name. Returns PEF_NOT_THERE, if there is none, or the connection
/// isn't open, or its closure lacks the fragment.
#[inline]
pub unsafe fn pef_fragment_symbol(context: *const pef_context, connection: u32, fragment: usize, name: *const u8, name_length: usize, address: *mut u32) -> u32 {
    let mut copy = *context;
    exported::pef_fragment_symbol(&mut copy, connection, fragment, name, name_length, address)
}

/// Reads what import `number` of a fragment means. Exports that are passed on have been followed. The numbers of imports are
/// those of `pef_imports()`.
///
/// Returns PEF_NOT_THERE past the last import, and if the connection isn't open, or its closure lacks the fragment.
#[inline]
pub unsafe fn pef_import_target(context: *const pef_context, connection: u32, fragment: usize, number: usize, target: *mut pef_target) -> u32 {
    let mut copy = *context;
    exported::pef_import_target(&mut copy, connection, fragment, number, target)
}

/// Gives the address of export `number` of a fragment. The numbers of exports are those of `pef_exports()`.
///
/// Returns PEF_NOT_THERE past the last export, and if the connection isn't open, or its closure lacks the fragment.
#[inline]
pub unsafe fn pef_export_address(context: *const pef_context, connection: u32, fragment: usize, number: usize, address: *mut u32) -> u32 {
    let mut copy = *context;
    exported::pef_export_address(&mut copy, connection, fragment, number, address)
}

/// Counts the exports of a fragment, whose numbers are from 0 on and are those of `pef_exports()`. This call and the next two
/// use what the context keeps of a fragment, so they don't read the container again.
///
/// Returns PEF_NOT_THERE, if the connection isn't open, or its closure lacks the fragment.
#[inline]
pub unsafe fn pef_fragment_exports(context: *const pef_context, connection: u32, fragment: usize, count: *mut usize) -> u32 {
    let mut copy = *context;
    exported::pef_fragment_exports(&mut copy, connection, fragment, count)
}

/// Read export `number` of a fragment, and a fragment's first export with a name. `target.address` is the address that
/// `pef_export_address()` and `pef_fragment_symbol()` give.
///
/// Return PEF_NOT_THERE past the last export or if none has the name, and if the connection isn't open, or its closure lacks
/// the fragment.
#[inline]
pub unsafe fn pef_fragment_export(context: *const pef_context, connection: u32, fragment: usize, number: usize, found: *mut pef_fragment_export) -> u32 {
    let mut copy = *context;
    exported::pef_fragment_export(&mut copy, connection, fragment, number, found)
}

/// See [`pef_fragment_export()`].
#[inline]
pub unsafe fn pef_fragment_export_named(context: *const pef_context, connection: u32, fragment: usize, name: *const u8, name_length: usize, found: *mut pef_fragment_export) -> u32 {
    let mut copy = *context;
    exported::pef_fragment_export_named(&mut copy, connection, fragment, name, name_length, found)
}

/// Gives the number of a fragment's first import with a name, for `pef_import_target()`. It reads one import after the other.
///
/// Returns PEF_NOT_THERE, if no import has the name, or the connection isn't open, or its closure lacks the fragment.
#[inline]
pub unsafe fn pef_fragment_import_named(context: *const pef_context, connection: u32, fragment: usize, name: *const u8, name_length: usize, number: *mut usize) -> u32 {
    let mut copy = *context;
    exported::pef_fragment_import_named(&mut copy, connection, fragment, name, name_length, number)
}

/// Finds where an address is, as a debugger or the report of an error in a program has to. It reads the exports of one fragment,
/// one after the other.
///
/// Returns PEF_NOT_THERE, if the address is in no section of a fragment that is present.
#[inline]
pub unsafe fn pef_at(context: *const pef_context, address: u32, location: *mut pef_location) -> u32 {
    let mut copy = *context;
    exported::pef_at(&mut copy, address, location)
}

// The library writes to the struct while it reads a context, so each of the calls above hands it a copy.
mod exported {
    use crate::*;

    extern "C" {
        pub fn pef_lacking(context: *mut pef_context, from: usize, places: *mut pef_lacking, place_count: usize, count: *mut usize) -> u32;
        pub fn pef_stub(context: *mut pef_context, library: *const u8, library_length: usize, options: *const pef_stub_options, buffer: *mut u8, buffer_length: usize, written: *mut usize, symbol_count: *mut usize) -> u32;
        pub fn pef_new_fragments(context: *mut pef_context, connection: u32, places: *mut usize, place_count: usize, count: *mut usize) -> u32;
        pub fn pef_released_by(context: *mut pef_context, connection: u32, places: *mut usize, place_count: usize, count: *mut usize) -> u32;
        pub fn pef_fragments(context: *mut pef_context, connection: u32, places: *mut usize, place_count: usize, count: *mut usize) -> u32;
        pub fn pef_init_order(context: *mut pef_context, connection: u32, places: *mut usize, place_count: usize, count: *mut usize) -> u32;
        pub fn pef_fragment_name(context: *mut pef_context, fragment: usize, name: *mut pef_bytes) -> u32;
        pub fn pef_next_fragment(context: *mut pef_context, from: usize, fragment: *mut usize) -> u32;
        pub fn pef_is_present(context: *mut pef_context, name: *const u8, name_length: usize, is_present: *mut bool) -> u32;
        pub fn pef_fragment_sections(context: *mut pef_context, fragment: usize, count: *mut usize) -> u32;
        pub fn pef_fragment_section(context: *mut pef_context, connection: u32, fragment: usize, number: usize, section: *mut pef_fragment_section) -> u32;
        pub fn pef_fragment_bytes(context: *mut pef_context, fragment: usize, number: usize, buffer: *mut u8, buffer_length: usize, written: *mut usize) -> u32;
        pub fn pef_fragment_entries(context: *mut pef_context, connection: u32, fragment: usize, entries: *mut pef_entries) -> u32;
        pub fn pef_fragment_symbol(context: *mut pef_context, connection: u32, fragment: usize, name: *const u8, name_length: usize, address: *mut u32) -> u32;
        pub fn pef_import_target(context: *mut pef_context, connection: u32, fragment: usize, number: usize, target: *mut pef_target) -> u32;
        pub fn pef_export_address(context: *mut pef_context, connection: u32, fragment: usize, number: usize, address: *mut u32) -> u32;
        pub fn pef_fragment_exports(context: *mut pef_context, connection: u32, fragment: usize, count: *mut usize) -> u32;
        pub fn pef_fragment_export(context: *mut pef_context, connection: u32, fragment: usize, number: usize, found: *mut pef_fragment_export) -> u32;
        pub fn pef_fragment_export_named(context: *mut pef_context, connection: u32, fragment: usize, name: *const u8, name_length: usize, found: *mut pef_fragment_export) -> u32;
        pub fn pef_fragment_import_named(context: *mut pef_context, connection: u32, fragment: usize, name: *const u8, name_length: usize, number: *mut usize) -> u32;
        pub fn pef_at(context: *mut pef_context, address: u32, location: *mut pef_location) -> u32;
    }
}
