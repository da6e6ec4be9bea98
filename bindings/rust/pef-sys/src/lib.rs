//! The declarations of `pef.h`, word for word: the library libpef reads, links and loads PEF containers, the executables of the classic
//! Mac OS on PowerPC.
//!
//! The crate `pef`, beside this one, is the safe interface. The comments here are those of the header. What it says of every call:
//!
//! - No pointer is null, but one with a length of 0 may be.
//! - A pointer with a length points to at least that many bytes, which nobody else changes during the call.
//! - What a call fills, it fills whatever was there, so it may be uninitialized memory. What a call leaves unchanged keeps its bytes.
//! - What a call writes overlaps nothing else that it takes.
//! - A context is used by one thread at a time; but several may read it at once, by the calls that take a `*const pef_context`.
//! - A thread that makes calls has 64 KB of stack for them, and 160 KB for those that open a report.
//!
//! The crate compiles the library from its source in C, or links with one that is installed.
//!
//! ```
//! let mut name = pef_sys::PEF_NO_BYTES;
//! let answer = unsafe { pef_sys::pef_name(pef_sys::PEF_BAD_TAG, &mut name) };
//! assert_eq!((answer, name.length), (pef_sys::PEF_OK, "BadTag".len()));
//! ```
#![no_std]
#![allow(non_camel_case_types)]

// Written from the header, with its lines.
#[rustfmt::skip]
#[allow(clippy::missing_safety_doc, clippy::too_many_arguments)]
mod declarations;

pub use declarations::*;
