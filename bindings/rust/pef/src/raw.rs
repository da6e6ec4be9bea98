//! The calls of the library, made safe. No other module has unsafe code.
//!
//! What the header asks of each call, and why it holds here:
//!
//! - Pointers come from slices, from vectors with room, or from places on the stack: they aren't null, and have as many bytes as is said.
//!   A `&[u8]` isn't changed by anybody during the call.
//! - What is written is borrowed by `&mut`, or owned here, so it overlaps nothing.
//! - What a call returns with `PEF_OK` it has written, whatever was there: only then is it read.
//! - Slices that a call gives are parts of what it was handed. They are cut out of that by their places, without trust in the pointer;
//!   only names from a context are made of the pointer, and the context keeps what they are parts of.
//! - A thread with less stack than a call takes is stopped before it, by its guard page: `touch_stack`.
//! - What opens a handle is one type for each, which isn't copied and frees it once, when it is dropped.

use alloc::vec::Vec;
use core::marker::PhantomData;
use core::mem::MaybeUninit;
use core::ptr::addr_of_mut;

use pef_sys as sys;
use sys::{pef_bytes, PEF_OK, PEF_OUT_OF_MEMORY};

#[cfg(feature = "std")]
mod contexts;

#[cfg(feature = "std")]
pub(crate) use contexts::*;

/// The answer of a call that isn't `PEF_OK`.
pub(crate) type Number = u32;

fn done(answer: u32) -> Result<(), Number> {
    match answer {
        PEF_OK => Ok(()),
        number => Err(number),
    }
}

/// How much stack a call takes at most: 64 KB, and 160 KB to open a report.
const STACK: usize = 160 << 10;

/// Touches the stack that a call takes, page after page, as the compiler does for each large frame. The library's code doesn't: in a thread
/// with less it could pass the guard page.
#[inline(never)]
fn touch_stack() {
    let room = MaybeUninit::<[u8; STACK]>::uninit();
    // SAFETY: the place is STACK - 1, which the compiler can't know, so it keeps all of the room. Any value will do, and none is used.
    unsafe {
        let at = core::ptr::read_volatile(&(STACK - 1));
        let _ = core::ptr::read_volatile(room.as_ptr().cast::<MaybeUninit<u8>>().add(at));
    }
}

/// Makes a call that fills a place if it returns `PEF_OK`.
///
/// # Safety
///
/// The call returns `PEF_OK` only if it has filled the place.
unsafe fn filled<T>(call: impl FnOnce(*mut T) -> u32) -> Result<T, Number> {
    touch_stack();
    let mut place = MaybeUninit::uninit();
    done(call(place.as_mut_ptr()))?;
    Ok(place.assume_init())
}

/// The same for a call that fills two places.
///
/// # Safety
///
/// The call returns `PEF_OK` only if it has filled both.
unsafe fn both_filled<T, U>(call: impl FnOnce(*mut T, *mut U) -> u32) -> Result<(T, U), Number> {
    let mut other = MaybeUninit::uninit();
    let first = filled(|place| call(place, other.as_mut_ptr()))?;
    Ok((first, other.assume_init()))
}

/// Has a call write to a new vector of this length. Its bytes aren't set before.
///
/// # Safety
///
/// If the call returns `PEF_OK`, it has filled as many items as it stores in its last place, or `length` of them if it stores nothing.
unsafe fn new_vector<T>(length: usize, call: impl FnOnce(*mut T, usize, *mut usize) -> u32) -> Result<Vec<T>, Number> {
    touch_stack();
    let mut made = Vec::new();
    made.try_reserve_exact(length).map_err(|_| PEF_OUT_OF_MEMORY)?;
    let mut count = length;
    done(call(made.as_mut_ptr(), length, &mut count))?;
    made.set_len(count.min(length));
    Ok(made)
}

/// The same for rows of tables, of which few are read at once. It takes memory as all vectors do.
///
/// # Safety
///
/// If the call returns `PEF_OK`, it has filled as many rows as it stores in its last place.
unsafe fn new_rows<T>(most: usize, call: impl FnOnce(*mut T, usize, *mut usize) -> u32) -> Result<Vec<T>, Number> {
    let mut made = Vec::with_capacity(most);
    let count = filled(|count| call(made.as_mut_ptr(), most, count))?;
    made.set_len(count.min(most));
    Ok(made)
}

/// The part of some bytes that a call gave. No bytes may be anywhere.
pub(crate) fn part_of(whole: &[u8], part: pef_bytes) -> &[u8] {
    let start = (part.at as usize).wrapping_sub(whole.as_ptr() as usize);
    let end = start.checked_add(part.length);
    end.and_then(|end| whole.get(start..end)).unwrap_or(&[])
}

pub(crate) fn version() -> u32 {
    touch_stack();
    // SAFETY: it takes nothing.
    unsafe { sys::pef_version() }
}

fn text_of(call: unsafe extern "C" fn(u32, *mut pef_bytes) -> u32, number: u32) -> Option<&'static str> {
    // SAFETY: both calls fill the place with text that is valid until the program ends.
    let text = unsafe { filled(|place| call(number, place)) }.ok()?;
    core::str::from_utf8(unsafe { core::slice::from_raw_parts(text.at, text.length) }).ok()
}

pub(crate) fn name_of(number: u32) -> Option<&'static str> {
    text_of(sys::pef_name, number)
}

pub(crate) fn help_of(number: u32) -> Option<&'static str> {
    text_of(sys::pef_help, number)
}

// --- containers ---

pub(crate) fn container_place(bytes: &[u8]) -> Option<sys::pef_place> {
    touch_stack();
    let mut place = MaybeUninit::uninit();
    // SAFETY: the call fills the place unless it returns PEF_OK.
    match unsafe { sys::pef_container_place(bytes.as_ptr(), bytes.len(), place.as_mut_ptr()) } {
        PEF_OK => None,
        _ => Some(unsafe { place.assume_init() }),
    }
}

/// Calls that read one struct of some bytes.
macro_rules! reads {
    ($($name:ident: $call:ident -> $row:ident;)*) => {
        $(pub(crate) fn $name(bytes: &[u8]) -> Result<sys::$row, Number> {
            // SAFETY: the call fills the struct if it returns PEF_OK.
            unsafe { filled(|row| sys::$call(bytes.as_ptr(), bytes.len(), row)) }
        })*
    };
}

reads! {
    header: pef_header -> pef_header;
    partial_header: pef_partial_header -> pef_header;
    loader: pef_loader -> pef_loader;
    partial_loader: pef_partial_loader -> pef_loader;
    forks: pef_forks -> pef_forks;
    resource_map: pef_resource_map -> pef_resource_map;
}

/// Calls that read the section with a number, and those that read its name.
macro_rules! reads_sections {
    ($($name:ident, $its_name:ident: $call:ident, $name_call:ident;)*) => {
        $(pub(crate) fn $name(bytes: &[u8], number: usize) -> Result<(sys::pef_section, &[u8]), Number> {
            // SAFETY: the call fills both places if it returns PEF_OK. The bytes are a part of the container.
            let (row, raw) = unsafe { both_filled(|row, raw| sys::$call(bytes.as_ptr(), bytes.len(), number, row, raw)) }?;
            Ok((row, part_of(bytes, raw)))
        }

        pub(crate) fn $its_name(bytes: &[u8], number: usize) -> Result<&[u8], Number> {
            // SAFETY: the call fills the place if it returns PEF_OK.
            let name = unsafe { filled(|name| sys::$name_call(bytes.as_ptr(), bytes.len(), number, name)) }?;
            Ok(part_of(bytes, name))
        })*
    };
}

reads_sections! {
    section, section_name: pef_section, pef_section_name;
    partial_section, partial_section_name: pef_partial_section, pef_partial_section_name;
}

/// Calls that read the rows of a table from a number on, at most so many.
macro_rules! reads_rows {
    ($($name:ident: $call:ident -> $row:ident;)*) => {
        $(pub(crate) fn $name(bytes: &[u8], from: usize, most: usize) -> Result<Vec<sys::$row>, Number> {
            // SAFETY: the call fills as many rows as it counts.
            unsafe { new_rows(most, |places, room, count| sys::$call(bytes.as_ptr(), bytes.len(), from, places, room, count)) }
        })*
    };
}

reads_rows! {
    libraries: pef_libraries -> pef_library;
    imports: pef_imports -> pef_import;
    relocations: pef_relocations -> pef_relocation;
    exports: pef_exports -> pef_export;
    partial_libraries: pef_partial_libraries -> pef_library;
    partial_imports: pef_partial_imports -> pef_import;
    partial_relocations: pef_partial_relocations -> pef_relocation;
    partial_exports: pef_partial_exports -> pef_export;
    findings: pef_findings -> pef_finding;
    more_notes: pef_more_notes -> pef_finding;
    resources: pef_resources -> pef_resource;
}

pub(crate) fn fixups(bytes: &[u8], header: usize, from: usize, most: usize) -> Result<Vec<sys::pef_fixup>, Number> {
    // SAFETY: the call fills as many rows as it counts.
    unsafe { new_rows(most, |places, room, count| sys::pef_partial_fixups(bytes.as_ptr(), bytes.len(), header, from, places, room, count)) }
}

pub(crate) fn export_named(bytes: &[u8], name: &[u8]) -> Result<(usize, sys::pef_export), Number> {
    // SAFETY: the call fills both places if it returns PEF_OK.
    unsafe { both_filled(|number, row| sys::pef_export_named(bytes.as_ptr(), bytes.len(), name.as_ptr(), name.len(), number, row)) }
}

pub(crate) fn import_named(bytes: &[u8], name: &[u8]) -> Result<(usize, sys::pef_import), Number> {
    // SAFETY: the call fills both places if it returns PEF_OK.
    unsafe { both_filled(|number, row| sys::pef_import_named(bytes.as_ptr(), bytes.len(), name.as_ptr(), name.len(), number, row)) }
}

pub(crate) fn expand_into(packed: &[u8], out: &mut [u8]) -> Result<(), Number> {
    touch_stack();
    // SAFETY: the call writes nothing but `out`.
    done(unsafe { sys::pef_expand(packed.as_ptr(), packed.len(), out.as_mut_ptr(), out.len()) })
}

pub(crate) fn expand(packed: &[u8], length: usize) -> Result<Vec<u8>, Number> {
    // SAFETY: the call fills all of the room if it returns PEF_OK.
    unsafe { new_vector(length, |out, room, _| sys::pef_expand(packed.as_ptr(), packed.len(), out, room)) }
}

// --- files of the classic Mac OS ---

pub(crate) fn file_kind(file: &[u8]) -> u32 {
    touch_stack();
    // SAFETY: it reads bytes.
    unsafe { sys::pef_file_kind(file.as_ptr(), file.len()) }
}

pub(crate) fn find_resource(fork: &[u8], kind: u32, id: i16) -> Result<sys::pef_resource, Number> {
    // SAFETY: the call fills the struct if it returns PEF_OK.
    unsafe { filled(|row| sys::pef_find_resource(fork.as_ptr(), fork.len(), kind, id, row)) }
}

pub(crate) fn members(table: &[u8], fork: &[u8], from: usize, most: usize) -> Result<Vec<sys::pef_member>, Number> {
    let call = |places, room, count| {
        // SAFETY: the places have this room.
        unsafe { sys::pef_members(table.as_ptr(), table.len(), fork.as_ptr(), fork.len(), from, places, room, count) }
    };
    // SAFETY: the call fills as many rows as it counts.
    unsafe { new_rows(most, call) }
}

pub(crate) fn find_containers(bytes: &[u8], from: usize, most: usize) -> Result<Vec<usize>, Number> {
    // SAFETY: the call fills as many places as it counts.
    unsafe { new_rows(most, |places, room, count| sys::pef_find_containers(bytes.as_ptr(), bytes.len(), from, places, room, count)) }
}

pub(crate) fn file_container<'a>(file: &'a [u8], name: &[u8]) -> Result<&'a [u8], Number> {
    // SAFETY: the call fills the place if it returns PEF_OK.
    let found = unsafe { filled(|place| sys::pef_file_container(file.as_ptr(), file.len(), name.as_ptr(), name.len(), place)) }?;
    Ok(part_of(file, found))
}

pub(crate) fn fork_container<'a>(fork: &'a [u8], resources: &'a [u8], name: &[u8]) -> Result<&'a [u8], Number> {
    let call = |place| {
        // SAFETY: the call fills the place if it returns PEF_OK.
        unsafe { sys::pef_fork_container(fork.as_ptr(), fork.len(), resources.as_ptr(), resources.len(), name.as_ptr(), name.len(), place) }
    };
    let found: pef_bytes = unsafe { filled(call) }?;
    let in_fork = part_of(fork, found);
    Ok(if in_fork.is_empty() { part_of(resources, found) } else { in_fork })
}

// --- reports and listings ---

/// Reads the next bytes of a handle into a buffer, and counts them.
fn next_of<T>(
    handle: &mut T,
    buffer: &mut [u8],
    call: unsafe extern "C" fn(*mut T, *mut u8, usize, *mut usize) -> u32,
) -> Result<usize, Number> {
    // SAFETY: the handle is borrowed for the call, and the count is filled if the call returns PEF_OK.
    let written = unsafe { filled(|count| call(handle, buffer.as_mut_ptr(), buffer.len(), count)) }?;
    Ok(written.min(buffer.len()))
}

/// A container of a file, or the end of the file.
type Found = Result<sys::pef_found_container, sys::pef_found_container>;

pub(crate) fn first_container(file: &[u8]) -> Found {
    touch_stack();
    let mut found = MaybeUninit::uninit();
    // SAFETY: the call fills the struct, whatever it returns.
    let answer = unsafe { sys::pef_first_container(file.as_ptr(), file.len(), found.as_mut_ptr()) };
    let found = unsafe { found.assume_init() };
    done(answer).map(|()| found).map_err(|_| found)
}

/// The container after another one of the same file.
pub(crate) fn next_container(file: &[u8], mut found: sys::pef_found_container) -> Found {
    touch_stack();
    // SAFETY: the call changes the struct alone.
    let answer = unsafe { sys::pef_next_container(file.as_ptr(), file.len(), &mut found) };
    done(answer).map(|()| found).map_err(|_| found)
}

/// An open report.
pub(crate) struct Report(sys::pef_report);

// SAFETY: the library has no state outside of the report, and asks only that one thread uses it at a time.
unsafe impl Send for Report {}
// SAFETY: nothing can be done with a shared one.
unsafe impl Sync for Report {}

impl Report {
    /// A report that a call opens. It begins as zero bytes.
    fn opened(call: impl FnOnce(*mut sys::pef_report) -> u32) -> Result<Self, Number> {
        touch_stack();
        let mut it = Self(sys::PEF_NO_REPORT);
        done(call(&mut it.0))?;
        Ok(it)
    }

    pub(crate) fn of_file(path: &[u8], file: &[u8]) -> Result<Self, Number> {
        // SAFETY: neither the path nor the file is kept.
        Self::opened(|it| unsafe { sys::pef_report_open(it, path.as_ptr(), path.len(), file.as_ptr(), file.len()) })
    }

    pub(crate) fn of_container(bytes: &[u8]) -> Result<Self, Number> {
        // SAFETY: the bytes aren't kept.
        Self::opened(|it| unsafe { sys::pef_report_open_container(it, bytes.as_ptr(), bytes.len()) })
    }

    /// The report up to the containers.
    pub(crate) fn head(path: &[u8], file: &[u8]) -> Result<Self, Number> {
        // SAFETY: neither the path nor the file is kept.
        Self::opened(|it| unsafe { sys::pef_report_open_head(it, path.as_ptr(), path.len(), file.as_ptr(), file.len()) })
    }

    /// A container of a file. Any struct will do: a place outside the file has no bytes.
    pub(crate) fn found(file: &[u8], found: &sys::pef_found_container) -> Result<Self, Number> {
        // SAFETY: the file isn't kept.
        Self::opened(|it| unsafe { sys::pef_report_open_found(it, file.as_ptr(), file.len(), found) })
    }

    /// The report after the containers.
    pub(crate) fn end(file: &[u8], end: &sys::pef_found_container) -> Result<Self, Number> {
        // SAFETY: the file isn't kept.
        Self::opened(|it| unsafe { sys::pef_report_open_end(it, file.as_ptr(), file.len(), end) })
    }

    /// The beginning of a container's object.
    pub(crate) fn excerpt(file: &[u8], found: &sys::pef_found_container, most: u32) -> Result<Self, Number> {
        // SAFETY: the file isn't kept.
        Self::opened(|it| unsafe { sys::pef_report_open_excerpt(it, file.as_ptr(), file.len(), found, most) })
    }

    /// Rows of a container.
    pub(crate) fn rows(file: &[u8], rows: &sys::pef_row_range) -> Result<Self, Number> {
        // SAFETY: the file isn't kept.
        Self::opened(|it| unsafe { sys::pef_report_open_rows(it, file.as_ptr(), file.len(), rows) })
    }

    pub(crate) fn next(&mut self, buffer: &mut [u8]) -> Result<usize, Number> {
        next_of(&mut self.0, buffer, sys::pef_report_next)
    }
}

impl Drop for Report {
    fn drop(&mut self) {
        touch_stack();
        // SAFETY: one that isn't open stays as it is.
        unsafe { sys::pef_report_free(&mut self.0) }
    }
}

/// An open listing of a container, which it keeps: `'a` has to be there when it is dropped.
pub(crate) struct Listing<'a>(sys::pef_listing, PhantomData<&'a [u8]>);

// SAFETY: the library has no state outside of the listing, and asks only that one thread uses it at a time.
unsafe impl Send for Listing<'_> {}
// SAFETY: nothing can be done with a shared one.
unsafe impl Sync for Listing<'_> {}

impl<'a> Listing<'a> {
    pub(crate) fn open(bytes: &'a [u8]) -> Result<Self, Number> {
        touch_stack();
        let mut it = Self(sys::PEF_NO_LISTING, PhantomData);
        // SAFETY: the listing begins as zero bytes. The bytes stay, unchanged, until it is freed: it can't be opened again for others.
        done(unsafe { sys::pef_list_open(&mut it.0, bytes.as_ptr(), bytes.len()) })?;
        Ok(it)
    }

    pub(crate) fn next(&mut self, buffer: &mut [u8]) -> Result<usize, Number> {
        next_of(&mut self.0, buffer, sys::pef_list_next)
    }
}

impl Drop for Listing<'_> {
    fn drop(&mut self) {
        touch_stack();
        // SAFETY: one that isn't open stays as it is.
        unsafe { sys::pef_list_free(&mut self.0) }
    }
}

/// What a call makes of a script.
pub(crate) enum Made {
    Bytes(Vec<u8>),
    /// The bytes are so many.
    Needs(usize),
    /// The error, and the number of the line or 0.
    Refused(Number, usize),
}

type ScriptCall = unsafe extern "C" fn(*const u8, usize, *mut u8, usize, *mut usize, *mut usize) -> Number;

/// Links a script into a new vector of this length.
pub(crate) fn link(script: &[u8], length: usize) -> Made {
    made(sys::pef_link, script, length)
}

/// Writes the certificates of a script into a new vector of this length.
pub(crate) fn distances(script: &[u8], length: usize) -> Made {
    made(sys::pef_distances, script, length)
}

fn made(of_script: ScriptCall, script: &[u8], length: usize) -> Made {
    let (mut needed, mut line) = (0, 0);
    let call = |buffer, room, written: *mut usize| {
        // SAFETY: the buffer has this room, and what was written is counted in the same place as what is needed.
        let answer = unsafe { of_script(script.as_ptr(), script.len(), buffer, room, addr_of_mut!(needed), addr_of_mut!(line)) };
        if answer == PEF_OK {
            // SAFETY: new_vector hands a place on its stack.
            unsafe { *written = needed };
        }
        answer
    };
    // SAFETY: the call fills as many bytes as it counts.
    match unsafe { new_vector(length, call) } {
        Ok(made) => Made::Bytes(made),
        Err(sys::PEF_ROOM_TOO_SMALL) => Made::Needs(needed),
        Err(number) => Made::Refused(number, line),
    }
}

/// The place of the first error of a script, and the earlier line that it is about, or 0.
pub(crate) fn script_place(script: &[u8]) -> Option<(sys::pef_place, usize)> {
    touch_stack();
    let (mut place, mut earlier) = (MaybeUninit::uninit(), 0);
    // SAFETY: the call fills the place if it returns an error from 41 to 49.
    match unsafe { sys::pef_script_place(script.as_ptr(), script.len(), place.as_mut_ptr(), &mut earlier) } {
        sys::PEF_SCRIPT_BAD_LINE..=sys::PEF_SCRIPT_BAD_KIND => Some((unsafe { place.assume_init() }, earlier)),
        _ => None,
    }
}
