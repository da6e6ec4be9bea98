//! PEF containers, the executables of the classic Mac OS on PowerPC: read, inspected, linked, and loaded into the memory of an emulator.
//!
//! The work is done by libpef, whose functions are proved to do what their contracts say.
//!
//! | Use | For |
//! |---|---|
//! | [`Container`] | the parts of a container: sections, libraries, imports, exports, relocations |
//! | [`Damaged`], [`findings`], [`Report`] | a container that may be damaged, and all that is wrong with it |
//! | [`link`] | the container of a script |
//! | [`distances`] | the certificates of a script |
//! | [`Listing`] | the lines of `pef list` |
#![cfg_attr(feature = "std", doc = "| [`Context`] | the memory that containers become, while fragments come and go |")]
//! | [`MacFile`] | the forks, resources and containers of a file of the classic Mac OS |
//!
//! ```
//! let bytes = pef::link("section data data process 4 4\nbytes data 0000002A\nexport answer data data 0\n")?;
//! let container = pef::Container::read(&bytes)?;
//! for export in container.exports() {
//!     println!("{}: {:?}", export.name.escape_ascii(), export.value);
//! }
//! assert_eq!(container.find("answer").unwrap().class, pef::SymbolClass::Data);
//! # Ok::<(), Box<dyn std::error::Error>>(())
//! ```
//!
//! # Names
//!
//! Names are bytes, in Mac Roman or anything else. What takes a name takes a `str`, too, of which it compares the bytes.
//!
//! # What it needs
//!
//! A C compiler and a machine with addresses of 64 bits whose low bytes come first: `pef-sys` compiles the library from its source in C, or
//! links with one that is installed. The feature `std`, which is on by default, gives [`std::error::Error`], [`std::io::Read`] and
//! contexts. Without it the crate needs `alloc` alone. The oldest compiler is 1.63.
//!
//! A call takes up to 160 KB of stack. Each thread of std has more, unless it was made with less. Then a call ends the process with a stack
//! overflow, as any function does.
#![cfg_attr(not(feature = "std"), no_std)]
#![deny(unsafe_code)]
#![warn(missing_docs)]

extern crate alloc;

mod code;
mod container;
#[cfg(feature = "std")]
mod context;
mod damaged;
mod error;
mod inspect;
mod listing;
mod mac;
mod parts;
#[allow(unsafe_code)]
mod raw;
mod rows;
mod script;
mod tables;

pub use code::Code;
pub use container::{Container, Fixups, Sections};
#[cfg(feature = "std")]
pub use context::{
    Connection, Context, ContextOptions, Entries, Fragment, Fragments, LackingLibrary, Location, MissingLibrary, NearestExport, NewSection,
    PlacedExport, PlacedSection, PlacedSections, Stub, StubValues, Target,
};
pub use damaged::Damaged;
pub use error::{Error, Part, Place};
pub use inspect::{findings, DetailKind, Finding, Report};
pub use listing::Listing;
#[cfg(feature = "std")]
pub use mac::resource_files;
pub use mac::{Damage, FileKind, Finder, FoundContainer, Locator, MacFile, MacPart, Member, Resource, Usage};
pub use parts::{ReportContainer, ReportContainers, ReportParts};
pub use rows::{Exports, Imports, Libraries, Relocations};
pub use script::{distances, link, ScriptError};
pub use tables::{
    Entry, Export, ExportValue, Fixup, FixupTarget, Header, Import, Library, Relocation, Section, SectionKind, Share, SymbolClass,
};

/// The program of the page.
#[cfg(all(doctest, feature = "std"))]
#[doc = include_str!("../README.md")]
struct Readme;

/// The version of the library that runs: major, minor and patch.
///
/// ```
/// assert_eq!(pef::version(), (0, 1, 0));
/// ```
pub fn version() -> (u32, u32, u32) {
    let number = raw::version();
    (number >> 16, number >> 8 & 255, number & 255)
}
