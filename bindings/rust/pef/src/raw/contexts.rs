//! The calls of contexts, made safe.

use alloc::vec::Vec;
use core::marker::PhantomData;

use pef_sys as sys;
use sys::pef_bytes;

use super::{done, filled, new_rows, new_vector, touch_stack, Number};

/// An export of a fragment with its name.
pub(crate) type NamedExport<'a> = (&'a [u8], sys::pef_fragment_export);

/// Missing libraries, each with its name.
type MissingRows<'a> = Vec<(&'a [u8], sys::pef_missing)>;

/// The names that come with an error.
#[derive(Default)]
pub(crate) struct Names<'a> {
    pub(crate) fragment: &'a [u8],
    pub(crate) library: &'a [u8],
    pub(crate) symbol: &'a [u8],
}

/// An open context over names and containers that stay for `'a`. What changes it takes `&mut`, and what reads it `&`.
///
/// It is invariant in `'a`: what is added through a context has to stay as long as any other name of the same context.
pub(crate) struct Context<'a>(sys::pef_context, Invariant<'a>);

type Invariant<'a> = PhantomData<fn(&'a [u8]) -> &'a [u8]>;

// SAFETY: the library has no state outside of the context, and takes it from any thread, as long as it is one at a time.
unsafe impl Send for Context<'_> {}
// SAFETY: with a shared context only calls are made that read it, which take a `*const pef_context`: any number of threads may be in them at
// once. Calls that change it have it alone, by `&mut`.
unsafe impl Sync for Context<'_> {}

impl Drop for Context<'_> {
    fn drop(&mut self) {
        touch_stack();
        // SAFETY: one that isn't open stays as it is. Then the library has nothing any more of what was added.
        unsafe { sys::pef_free(&mut self.0) }
    }
}

/// A slice of what was added.
///
/// # Safety
///
/// The bytes are a part of what was added to a context over `'a`, or none.
unsafe fn added<'a>(bytes: pef_bytes) -> &'a [u8] {
    match bytes.length {
        0 => &[],
        length => core::slice::from_raw_parts(bytes.at, length),
    }
}

/// An export with its name.
///
/// # Safety
///
/// The name is a part of what was added to a context over `'a`.
unsafe fn named<'a>(row: sys::pef_fragment_export) -> NamedExport<'a> {
    (added(row.name), row)
}

impl<'a> Context<'a> {
    pub(crate) fn open(options: &sys::pef_options) -> Result<Self, Number> {
        touch_stack();
        let mut it = Self(sys::PEF_NO_CONTEXT, PhantomData);
        // SAFETY: the context begins as zero bytes.
        done(unsafe { sys::pef_open_with(&mut it.0, options) })?;
        Ok(it)
    }

    pub(crate) fn add(&mut self, name: &'a [u8], bytes: &'a [u8]) -> Result<(), Number> {
        touch_stack();
        // SAFETY: both stay, unchanged, for 'a, and so until the context is freed.
        done(unsafe { sys::pef_add(&mut self.0, name.as_ptr(), name.len(), bytes.as_ptr(), bytes.len()) })
    }

    pub(crate) fn add_new(&mut self, name: &'a [u8], bytes: &'a [u8]) -> Result<(), Number> {
        touch_stack();
        // SAFETY: both stay, unchanged, for 'a, and so until the context is freed.
        done(unsafe { sys::pef_add_new(&mut self.0, name.as_ptr(), name.len(), bytes.as_ptr(), bytes.len()) })
    }

    pub(crate) fn remove(&mut self, name: &[u8]) -> Result<(), Number> {
        touch_stack();
        // SAFETY: the context is borrowed alone.
        done(unsafe { sys::pef_remove(&mut self.0, name.as_ptr(), name.len()) })
    }

    pub(crate) fn reserve(&mut self, address: u32, size: u32) -> Result<(), Number> {
        touch_stack();
        // SAFETY: the context is borrowed alone.
        done(unsafe { sys::pef_reserve(&mut self.0, address, size) })
    }

    pub(crate) fn unreserve(&mut self, address: u32, size: u32) -> Result<(), Number> {
        touch_stack();
        // SAFETY: the context is borrowed alone.
        done(unsafe { sys::pef_unreserve(&mut self.0, address, size) })
    }

    /// Missing libraries from a number on, at most so many, with their names. An error comes with its names and its place.
    pub(crate) fn missing(
        &mut self,
        name: &[u8],
        from: usize,
        most: usize,
    ) -> Result<MissingRows<'a>, (Number, Names<'a>, sys::pef_place)> {
        let mut names = sys::PEF_NO_NAMES;
        let mut place = sys::pef_place { part: sys::PEF_NOWHERE, row: 0, field: 0, offset: sys::PEF_NO_OFFSET };
        let context = &mut self.0;
        // SAFETY: the context is borrowed alone. The call fills as many places as it counts.
        let rows = unsafe {
            new_rows(most, |places, room, count| {
                sys::pef_missing_with_place(context, name.as_ptr(), name.len(), from, places, room, count, &mut names, &mut place)
            })
        };
        // SAFETY: names are parts of what was added, and those that aren't reported are empty.
        let names = unsafe { Names { fragment: added(names.fragment), library: added(names.library), symbol: added(names.symbol) } };
        // SAFETY: the names of the rows, too.
        rows.map(|rows| rows.into_iter().map(|row| (unsafe { added(row.name) }, row)).collect()).map_err(|answer| (answer, names, place))
    }

    /// Lacking libraries from a number on, at most so many: their names, and whether they are weak.
    pub(crate) fn lacking(&self, from: usize, most: usize) -> Result<Vec<(&'a [u8], bool)>, Number> {
        // SAFETY: the call reads the context, and fills as many places as it counts.
        let rows: Vec<sys::pef_lacking> =
            unsafe { new_rows(most, |places, room, count| sys::pef_lacking(&self.0, from, places, room, count)) }?;
        // SAFETY: names are parts of what was added.
        Ok(rows.into_iter().map(|row| (unsafe { added(row.name) }, row.is_weak)).collect())
    }

    /// The stub of a library, and how many symbols it exports.
    pub(crate) fn stub(&self, library: &[u8], options: &sys::pef_stub_options) -> Result<(Vec<u8>, usize), Number> {
        let mut length = 4096;
        loop {
            let (mut needed, mut symbols) = (0, 0);
            // SAFETY: the call reads the context. It fills as many bytes as it stores in `written`, which is a place in any case.
            let made = unsafe {
                new_vector(length, |place, room, written| {
                    let answer = sys::pef_stub(&self.0, library.as_ptr(), library.len(), options, place, room, written, &mut symbols);
                    needed = *written;
                    answer
                })
            };
            match made {
                Err(sys::PEF_ROOM_TOO_SMALL) => length = needed,
                made => return made.map(|bytes| (bytes, symbols)),
            }
        }
    }

    /// Prepares a fragment. An error comes with its names and its place.
    pub(crate) fn prepare(&mut self, name: &[u8]) -> Result<u32, (Number, Names<'a>, sys::pef_place)> {
        touch_stack();
        let mut names = sys::PEF_NO_NAMES;
        let mut place = sys::pef_place { part: sys::PEF_NOWHERE, row: 0, field: 0, offset: sys::PEF_NO_OFFSET };
        let mut number = 0;
        // SAFETY: the context is borrowed alone.
        let answer = unsafe { sys::pef_prepare_with_place(&mut self.0, name.as_ptr(), name.len(), &mut number, &mut names, &mut place) };
        // SAFETY: names are parts of what was added, and those that aren't reported are empty.
        let names = unsafe { Names { fragment: added(names.fragment), library: added(names.library), symbol: added(names.symbol) } };
        done(answer).map(|()| number).map_err(|answer| (answer, names, place))
    }

    /// The sections that a preparation would place, from a number on, at most so many. An error comes with its names and its place.
    pub(crate) fn new_sections(
        &mut self,
        name: &[u8],
        from: usize,
        most: usize,
    ) -> Result<Vec<sys::pef_new_section>, (Number, Names<'a>, sys::pef_place)> {
        let mut names = sys::PEF_NO_NAMES;
        let mut place = sys::pef_place { part: sys::PEF_NOWHERE, row: 0, field: 0, offset: sys::PEF_NO_OFFSET };
        let context = &mut self.0;
        // SAFETY: the context is borrowed alone. The call fills as many places as it counts.
        let rows = unsafe {
            new_rows(most, |places, room, count| {
                sys::pef_new_sections_with_place(context, name.as_ptr(), name.len(), from, places, room, count, &mut names, &mut place)
            })
        };
        // SAFETY: names are parts of what was added, and those that aren't reported are empty.
        let names = unsafe { Names { fragment: added(names.fragment), library: added(names.library), symbol: added(names.symbol) } };
        rows.map_err(|answer| (answer, names, place))
    }

    /// Prepares a fragment at some addresses. An error comes with its names and its place.
    pub(crate) fn prepare_at(&mut self, name: &[u8], addresses: &[u32]) -> Result<u32, (Number, Names<'a>, sys::pef_place)> {
        touch_stack();
        let mut names = sys::PEF_NO_NAMES;
        let mut place = sys::pef_place { part: sys::PEF_NOWHERE, row: 0, field: 0, offset: sys::PEF_NO_OFFSET };
        let mut number = 0;
        let (given, count) = (addresses.as_ptr(), addresses.len());
        // SAFETY: the context is borrowed alone.
        let answer =
            unsafe { sys::pef_prepare_at(&mut self.0, name.as_ptr(), name.len(), given, count, &mut number, &mut names, &mut place) };
        // SAFETY: names are parts of what was added, and those that aren't reported are empty.
        let names = unsafe { Names { fragment: added(names.fragment), library: added(names.library), symbol: added(names.symbol) } };
        done(answer).map(|()| number).map_err(|answer| (answer, names, place))
    }

    pub(crate) fn close(&mut self, connection: u32) -> Result<(), Number> {
        touch_stack();
        // SAFETY: the context is borrowed alone.
        done(unsafe { sys::pef_close(&mut self.0, connection) })
    }

    /// The fragments of a connection that a call stores: their numbers.
    pub(crate) fn fragments(&self, which: Which, connection: u32) -> Result<Vec<usize>, Number> {
        let call = match which {
            Which::All => sys::pef_fragments,
            Which::InitOrder => sys::pef_init_order,
            Which::New => sys::pef_new_fragments,
            Which::Released => sys::pef_released_by,
        };
        // SAFETY: so many places are enough. The call fills as many as it counts.
        unsafe { new_rows(sys::PEF_MAX_FRAGMENTS, |places, room, count| call(&self.0, connection, places, room, count)) }
    }

    pub(crate) fn name(&self, fragment: usize) -> Option<&'a [u8]> {
        // SAFETY: the call fills the place if it returns PEF_OK, with a name that was added.
        unsafe { filled(|name| sys::pef_fragment_name(&self.0, fragment, name)).ok().map(|name| added(name)) }
    }

    /// The first number from one on that a fragment has.
    pub(crate) fn next_fragment(&self, from: usize) -> Option<usize> {
        // SAFETY: the call fills the number if it returns PEF_OK.
        unsafe { filled(|number| sys::pef_next_fragment(&self.0, from, number)) }.ok()
    }

    pub(crate) fn is_present(&self, name: &[u8]) -> bool {
        // SAFETY: the call fills the place if it returns PEF_OK.
        unsafe { filled(|answer| sys::pef_is_present(&self.0, name.as_ptr(), name.len(), answer)) }.unwrap_or(false)
    }

    pub(crate) fn section_count(&self, fragment: usize) -> usize {
        // SAFETY: the call fills the place if it returns PEF_OK.
        unsafe { filled(|count| sys::pef_fragment_sections(&self.0, fragment, count)) }.unwrap_or(0)
    }

    pub(crate) fn section(&self, connection: u32, fragment: usize, number: usize) -> Option<sys::pef_fragment_section> {
        // SAFETY: the call fills the struct if it returns PEF_OK.
        unsafe { filled(|row| sys::pef_fragment_section(&self.0, connection, fragment, number, row)) }.ok()
    }

    pub(crate) fn copy_section(&self, fragment: usize, number: usize, buffer: &mut [u8]) -> Result<usize, Number> {
        // SAFETY: the call writes to the buffer alone, and fills the count if it returns PEF_OK.
        unsafe { filled(|written| sys::pef_fragment_bytes(&self.0, fragment, number, buffer.as_mut_ptr(), buffer.len(), written)) }
    }

    pub(crate) fn section_bytes(&self, fragment: usize, number: usize, size: usize) -> Result<Vec<u8>, Number> {
        // SAFETY: the call fills as many bytes as it counts.
        unsafe { new_vector(size, |buffer, room, count| sys::pef_fragment_bytes(&self.0, fragment, number, buffer, room, count)) }
    }

    pub(crate) fn entries(&self, connection: u32, fragment: usize) -> Option<sys::pef_entries> {
        // SAFETY: the call fills the struct if it returns PEF_OK.
        unsafe { filled(|row| sys::pef_fragment_entries(&self.0, connection, fragment, row)) }.ok()
    }

    pub(crate) fn symbol(&self, connection: u32, fragment: usize, name: &[u8]) -> Option<u32> {
        let call = |address| {
            // SAFETY: the call fills the place if it returns PEF_OK.
            unsafe { sys::pef_fragment_symbol(&self.0, connection, fragment, name.as_ptr(), name.len(), address) }
        };
        unsafe { filled(call) }.ok()
    }

    pub(crate) fn import_target(&self, connection: u32, fragment: usize, number: usize) -> Option<sys::pef_target> {
        // SAFETY: the call fills the struct if it returns PEF_OK.
        unsafe { filled(|row| sys::pef_import_target(&self.0, connection, fragment, number, row)) }.ok()
    }

    pub(crate) fn export_address(&self, connection: u32, fragment: usize, number: usize) -> Option<u32> {
        // SAFETY: the call fills the place if it returns PEF_OK.
        unsafe { filled(|address| sys::pef_export_address(&self.0, connection, fragment, number, address)) }.ok()
    }

    pub(crate) fn export_count(&self, connection: u32, fragment: usize) -> usize {
        // SAFETY: the call fills the place if it returns PEF_OK.
        unsafe { filled(|count| sys::pef_fragment_exports(&self.0, connection, fragment, count)) }.unwrap_or(0)
    }

    pub(crate) fn export(&self, connection: u32, fragment: usize, number: usize) -> Option<NamedExport<'a>> {
        // SAFETY: the call fills the struct if it returns PEF_OK, with a name in a container that was added.
        unsafe { filled(|row| sys::pef_fragment_export(&self.0, connection, fragment, number, row)).ok().map(|row| named(row)) }
    }

    pub(crate) fn export_named(&self, connection: u32, fragment: usize, name: &[u8]) -> Option<NamedExport<'a>> {
        let call = |row| {
            // SAFETY: the call fills the struct if it returns PEF_OK.
            unsafe { sys::pef_fragment_export_named(&self.0, connection, fragment, name.as_ptr(), name.len(), row) }
        };
        // SAFETY: the name that it is filled with is in a container that was added.
        unsafe { filled(call).ok().map(|row| named(row)) }
    }

    pub(crate) fn import_named(&self, connection: u32, fragment: usize, name: &[u8]) -> Option<usize> {
        let call = |number| {
            // SAFETY: the call fills the place if it returns PEF_OK.
            unsafe { sys::pef_fragment_import_named(&self.0, connection, fragment, name.as_ptr(), name.len(), number) }
        };
        unsafe { filled(call) }.ok()
    }

    /// Where an address is, and the name of the nearest export.
    pub(crate) fn at(&self, address: u32) -> Option<(&'a [u8], sys::pef_location)> {
        // SAFETY: the call fills the struct if it returns PEF_OK, with a name in a container that was added, or none.
        unsafe { filled(|row: *mut sys::pef_location| sys::pef_at(&self.0, address, row)).ok().map(|row| (added(row.nearest.name), row)) }
    }
}

/// Which fragments of a connection are asked for.
#[derive(Clone, Copy)]
pub(crate) enum Which {
    All,
    InitOrder,
    New,
    Released,
}
