//! Contexts: the memory that containers become.

use std::fmt;
use std::sync::{Arc, PoisonError, RwLock, RwLockReadGuard, RwLockWriteGuard};

use pef_sys as sys;

use crate::error::Error;
use crate::raw::{self, Which};
use crate::tables::{SectionKind, Share, SymbolClass, Text};

/// What a context and its connections have together. The last of them frees it.
struct Shared<'a>(RwLock<raw::Context<'a>>);

impl<'a> Shared<'a> {
    /// No call panics while it has the lock.
    fn read(&self) -> RwLockReadGuard<'_, raw::Context<'a>> {
        self.0.read().unwrap_or_else(PoisonError::into_inner)
    }

    fn write(&self) -> RwLockWriteGuard<'_, raw::Context<'a>> {
        self.0.write().unwrap_or_else(PoisonError::into_inner)
    }
}

/// Options of a context. What isn't set has its usual value, and so has what is set to 0.
///
/// ```
/// let context = pef::Context::with(pef::ContextOptions::new().granule(4096).steps(50_000_000).bytes(0x400_0000))?;
/// assert_eq!(pef::Context::with(pef::ContextOptions::new().granule(24)).unwrap_err().code(), pef::Code::BadGranule);
/// # Ok::<(), pef::Error>(())
/// ```
#[derive(Clone, Copy, Debug)]
#[must_use]
pub struct ContextOptions(sys::pef_options);

impl ContextOptions {
    /// The usual options.
    pub fn new() -> Self {
        Self(sys::PEF_USUAL_OPTIONS)
    }

    /// No section passes this address; usually 10000000 (hexadecimal).
    pub fn limit(mut self, address: u32) -> Self {
        self.0.limit = address;
        self
    }

    /// Each section begins at a multiple of this, and takes a multiple of it: a power of two from 16 on; usually 16.
    pub fn granule(mut self, size: u32) -> Self {
        self.0.granule = size;
        self
    }

    /// How many connections the context gives in all, closed ones included; usually 65,536.
    pub fn connections(mut self, count: u32) -> Self {
        self.0.connections = count;
        self
    }

    /// How many steps the relocation programs of one preparation may take together; usually there is no bound. Bound them if containers
    /// come from strangers.
    pub fn steps(mut self, count: u64) -> Self {
        self.0.steps = count;
        self
    }

    /// How many bytes the new sections of one preparation may take together; usually there is no bound. Bound them if containers come from
    /// strangers.
    pub fn bytes(mut self, count: u64) -> Self {
        self.0.bytes = count;
        self
    }
}

impl Default for ContextOptions {
    fn default() -> Self {
        Self::new()
    }
}

/// Fragments by name, and the memory in which they are prepared. It needs the feature `std`.
///
/// It keeps the names and containers that are added, without a copy: `'a` is how long they stay. It is freed when it and all of its
/// connections are dropped.
///
/// A context and its connections may be used by several threads: those that read do so at once, and what changes the context waits for
/// them.
///
/// ```
/// let tools = pef::link("section data data process 4 4\nbytes data 0000002A\nexport answer data data 0\n")?;
/// let app = pef::link("library Tools 1 0 -\nimport answer data strong\nsection data data process 4 4\nfix data 0 import answer\n")?;
///
/// let context = pef::Context::new()?;
/// context.add("Tools", &tools)?;
/// context.add("App", &app)?;
/// let connection = context.prepare("App")?;
/// let mut memory = vec![0; 0x20000];
/// for fragment in connection.new_fragments() {
///     for section in fragment.sections() {
///         let at = section.address() as usize;
///         section.copy_to(&mut memory[at..])?;
///     }
/// }
/// assert_eq!(memory[0x10000..0x10004], [0, 0, 0, 42]);
/// assert_eq!(memory[0x10010..0x10014], [0, 1, 0, 0]);
/// connection.close()?;
/// # Ok::<(), Box<dyn std::error::Error>>(())
/// ```
///
/// What is added stays as long as the context:
///
/// ```compile_fail,E0505
/// let context = pef::Context::new().unwrap();
/// let tools = vec![0; 40];
/// context.add("Tools", &tools).unwrap();
/// drop(tools);
/// context.prepare("Tools").unwrap();
/// ```
///
/// and as long as its connections, also if it was added when they were open:
///
/// ```compile_fail,E0597
/// let context = pef::Context::new().unwrap();
/// let connection = context.prepare("App");
/// {
///     let later = vec![0; 40];
///     context.add("Later", &later).unwrap();
/// }
/// drop(connection);
/// ```
pub struct Context<'a> {
    shared: Arc<Shared<'a>>,
}

impl<'a> Context<'a> {
    /// Opens a context without fragments.
    ///
    /// # Errors
    ///
    /// 99.
    pub fn new() -> Result<Self, Error> {
        Self::with(ContextOptions::new())
    }

    /// Opens a context with options.
    ///
    /// # Errors
    ///
    /// 205 if the granule is no power of two from 16 on, or 99.
    pub fn with(options: ContextOptions) -> Result<Self, Error> {
        let it = raw::Context::open(&options.0).map_err(Error::new)?;
        Ok(Self { shared: Arc::new(Shared(RwLock::new(it))) })
    }

    /// Adds a fragment: its name, and the bytes of its container. They are read by each preparation, and refused then. If two fragments have
    /// the same name, the first is used.
    ///
    /// Fragments may be added at any time, also while connections are open. Those stay as they are.
    ///
    /// # Errors
    ///
    /// 203 if a fragment of an open connection has a weak library of this name, and was prepared without it; 204 for the 257th fragment; or
    /// 99. The context is changed only if there is no error.
    pub fn add<N: AsRef<[u8]> + ?Sized>(&self, name: &'a N, bytes: &'a [u8]) -> Result<(), Error> {
        self.shared.write().add(name.as_ref(), bytes).map_err(Error::new)
    }

    /// Adds a fragment as [`add`](Self::add) does, if none has its name.
    ///
    /// # Errors
    ///
    /// 209 if a fragment has the name; or those of [`add`](Self::add). The context is changed only if there is no error.
    pub fn add_new<N: AsRef<[u8]> + ?Sized>(&self, name: &'a N, bytes: &'a [u8]) -> Result<(), Error> {
        self.shared.write().add_new(name.as_ref(), bytes).map_err(Error::new)
    }

    /// Removes the first fragment of a name. If another one has the name, that is the first then. The numbers of the others don't change, and
    /// neither do open connections. The number of the removed one goes to the next fragment that is added and whose name isn't there.
    ///
    /// ```
    /// let (one, other) = (pef::link("versions 1 0 0\n")?, pef::link("versions 2 0 0\n")?);
    /// let context = pef::Context::new()?;
    /// context.add("Plug-in", &one)?;
    /// let connection = context.prepare("Plug-in")?;
    /// assert_eq!(context.remove("Plug-in").unwrap_err().number(), 207);
    /// connection.close()?;
    /// context.remove("Plug-in")?;
    /// context.add("Other", &other)?;
    /// assert_eq!(context.fragment_name(0), Some(&b"Other"[..]));
    /// # Ok::<(), Box<dyn std::error::Error>>(())
    /// ```
    ///
    /// # Errors
    ///
    /// 60 if no fragment has the name; 207 if it is present; 208 if a fragment of an open connection names it as a library (a weak one, whose
    /// version didn't fit); or 99. The context is changed only if there is no error.
    pub fn remove<N: AsRef<[u8]> + ?Sized>(&self, name: &N) -> Result<(), Error> {
        self.shared.write().remove(name.as_ref()).map_err(Error::new)
    }

    /// Takes addresses out of use, until [`unreserve`](Self::unreserve) gives them back: no section is placed in them.
    ///
    /// The range begins at the multiple of 16 at or below the address, and ends at the one at or above its end. A size of 0 takes nothing.
    ///
    /// # Errors
    ///
    /// 67 if the range meets a section in memory or another range, or passes the last address of 32 bits; or 99.
    pub fn reserve(&self, address: u32, size: u32) -> Result<(), Error> {
        self.shared.write().reserve(address, size).map_err(Error::new)
    }

    /// Gives back a range that [`reserve`](Self::reserve) took out of use: sections can be placed there again. A size of 0 gives nothing back.
    ///
    /// # Errors
    ///
    /// 201 if the addresses aren't exactly such a range, also if they are a part of one or several.
    pub fn unreserve(&self, address: u32, size: u32) -> Result<(), Error> {
        self.shared.write().unreserve(address, size).map_err(Error::new)
    }

    /// The libraries that are missing for the fragment of a name and for all that it needs, in the order in which
    /// [`prepare`](Self::prepare) looks for them, each name once. Weak libraries are among them.
    ///
    /// Add those that you have, and ask again, since these may name others; then prepare the fragment.
    ///
    /// ```
    /// let app = pef::link("library Tools 2 1 weak\n")?;
    /// let context = pef::Context::new()?;
    /// context.add("App", &app)?;
    /// let missing = context.missing("App")?;
    /// assert_eq!((missing.len(), missing[0].name, missing[0].weak), (1, &b"Tools"[..], true));
    /// # Ok::<(), Box<dyn std::error::Error>>(())
    /// ```
    ///
    /// # Errors
    ///
    /// 60 if no fragment has the name; 1 to 20 for a fragment that can't be read, with its name and the place; or 99.
    pub fn missing<N: AsRef<[u8]> + ?Sized>(&self, name: &N) -> Result<Vec<MissingLibrary<'a>>, Error> {
        let (mut found, mut most) = (Vec::new(), 64);
        let mut context = self.shared.write();
        loop {
            let rows = context.missing(name.as_ref(), found.len(), most);
            let rows = rows.map_err(|(number, names, place)| Error::of_preparation(number, &names, place))?;
            let is_last = rows.len() < most;
            found.extend(rows.iter().map(|(name, row)| MissingLibrary::of(name, row)));
            if is_last {
                return Ok(found);
            }
            most = (2 * most).min(1 << 16);
        }
    }

    /// The libraries that the context lacks, whichever fragment is prepared: each name once, in the order of the fragments and of their
    /// entries. Fragments that can't be read are passed by.
    ///
    /// # Errors
    ///
    /// 99.
    pub fn lacking(&self) -> Result<Vec<LackingLibrary<'a>>, Error> {
        let (mut found, mut most) = (Vec::new(), 64);
        let context = self.shared.read();
        loop {
            let rows = context.lacking(found.len(), most).map_err(Error::new)?;
            let is_last = rows.len() < most;
            found.extend(rows.into_iter().map(|(name, weak)| LackingLibrary { name, weak }));
            if is_last {
                return Ok(found);
            }
            most = (2 * most).min(1 << 16);
        }
    }

    /// The stub of a library that nobody has: a container that exports what the fragments of the context import from it. It isn't added.
    ///
    /// # Errors
    ///
    /// 211 to 216 if there is no such stub, with the library's name; or 99.
    pub fn stub<N: AsRef<[u8]> + ?Sized>(&self, library: &N, values: StubValues) -> Result<Stub, Error> {
        let library = library.as_ref();
        let made = self.shared.read().stub(library, &values.options());
        match made {
            Ok((contents, symbols)) => Ok(Stub { library: library.to_vec(), contents, symbols }),
            Err(number) => Err(stub_error(number, library)),
        }
    }

    /// Adds a stub of each library that the context lacks, also of weak ones if that is so. `kept` gets the stubs, and the context borrows it
    /// for as long as it is there. Numbers go on from one stub to the next, so each belongs to one symbol.
    ///
    /// ```
    /// let app = pef::link("library System 1 0 -\nimport beep tvector strong\nsection d data process 4 4\nfix d 0 import beep\n")?;
    /// let mut kept = Vec::new();
    /// let context = pef::Context::new()?;
    /// context.add("App", &app)?;
    /// let stubs = context.add_stubs(pef::StubValues::default(), true, &mut kept)?;
    /// assert_eq!((stubs.len(), stubs[0].library()), (1, &b"System"[..]));
    /// let symbol = pef::Container::read(stubs[0].contents())?.exports().next().unwrap();
    /// assert_eq!((symbol.name, symbol.value), (&b"beep"[..], pef::ExportValue::Absolute(0xF000_0000)));
    /// let connection = context.prepare("App")?;
    /// assert_eq!(connection.root().section(0).unwrap().to_vec()?, [0xF0, 0, 0, 0]);
    /// # Ok::<(), Box<dyn std::error::Error>>(())
    /// ```
    ///
    /// The stubs stay as long as the context:
    ///
    /// ```compile_fail,E0597
    /// let context = pef::Context::new().unwrap();
    /// let mut kept = Vec::new();
    /// context.add_stubs(pef::StubValues::default(), true, &mut kept).unwrap();
    /// ```
    ///
    /// # Errors
    ///
    /// Those of [`stub`](Self::stub), and of [`add`](Self::add). Then no stub is added.
    pub fn add_stubs(&self, values: StubValues, weak: bool, kept: &'a mut Vec<Stub>) -> Result<&'a [Stub], Error> {
        let first = kept.len();
        let mut next = NextValues::new(values);
        for it in self.lacking()?.into_iter().filter(|it| weak || !it.weak) {
            kept.push(next.stub(self, it.name)?);
        }
        let made = &kept[first..];
        for (number, stub) in made.iter().enumerate() {
            if let Err(error) = self.add(&stub.library, &stub.contents) {
                for added in &made[..number] {
                    self.remove(&added.library)?;
                }
                return Err(error);
            }
        }
        Ok(made)
    }

    /// Prepares the fragment of a name and all that it needs: places them, fills them and relocates them, unless they are present already.
    ///
    /// # Errors
    ///
    /// 1 to 39, 60 to 70, 75 or 99, with its names, and its place in the container of the fragment that it names. The context is then as it
    /// was.
    pub fn prepare<N: AsRef<[u8]> + ?Sized>(&self, name: &N) -> Result<Connection<'a>, Error> {
        let prepared = self.shared.write().prepare(name.as_ref());
        match prepared {
            Ok(number) => Ok(Connection { shared: Arc::clone(&self.shared), number, is_open: true }),
            Err((number, names, place)) => Err(Error::of_preparation(number, &names, place)),
        }
    }

    /// The sections that [`prepare`](Self::prepare) would place for a name, in the order in which it places them.
    ///
    /// # Errors
    ///
    /// Those of `prepare` before it places anything: 1 to 20, 60 to 66, 68 to 70, 75 or 99, with its names.
    pub fn new_sections<N: AsRef<[u8]> + ?Sized>(&self, name: &N) -> Result<Vec<NewSection>, Error> {
        let (mut found, mut most) = (Vec::new(), 64);
        let mut context = self.shared.write();
        loop {
            let rows = context.new_sections(name.as_ref(), found.len(), most);
            let rows = rows.map_err(|(number, names, place)| Error::of_preparation(number, &names, place))?;
            let is_last = rows.len() < most;
            found.extend(rows.iter().map(NewSection::of));
            if is_last {
                return Ok(found);
            }
            most = (2 * most).min(1 << 16);
        }
    }

    /// Prepares as [`prepare`](Self::prepare) does, but places the sections of [`new_sections`](Self::new_sections) at these addresses, in
    /// its order.
    ///
    /// ```
    /// let app = pef::link("section data data process 4 16\n")?;
    /// let context = pef::Context::new()?;
    /// context.add("App", &app)?;
    /// let sections = context.new_sections("App")?;
    /// assert_eq!((sections.len(), sections[0].size, sections[0].alignment), (1, 16, 16));
    /// let connection = context.prepare_at("App", &[0x20000])?;
    /// # Ok::<(), Box<dyn std::error::Error>>(())
    /// ```
    ///
    /// # Errors
    ///
    /// Those of `prepare`, and 210 if there are more or fewer addresses than sections. 67 is for the first section whose address is below
    /// 00010000 (hex) or isn't a multiple of its alignment, or which would meet a section or a reserved range, or pass the limit.
    pub fn prepare_at<N: AsRef<[u8]> + ?Sized>(&self, name: &N, addresses: &[u32]) -> Result<Connection<'a>, Error> {
        let prepared = self.shared.write().prepare_at(name.as_ref(), addresses);
        match prepared {
            Ok(number) => Ok(Connection { shared: Arc::clone(&self.shared), number, is_open: true }),
            Err((number, names, place)) => Err(Error::of_preparation(number, &names, place)),
        }
    }

    /// Whether the fragment of a name is present: the closure of an open connection has it. False if none was added.
    pub fn is_present<N: AsRef<[u8]> + ?Sized>(&self, name: &N) -> bool {
        self.shared.read().is_present(name.as_ref())
    }

    /// Where an address is, with the nearest export at it or before it. `None` if it is in no section of a fragment that is present.
    pub fn at(&self, address: u32) -> Option<Location<'a>> {
        let (name, row) = self.shared.read().at(address)?;
        let nearest = row.nearest;
        let nearest = NearestExport { number: nearest.number, name, class: nearest.symbol_class.into(), offset: nearest.target.offset };
        Some(Location { fragment: row.fragment, section: row.section, offset: row.offset, nearest: row.has_nearest.then_some(nearest) })
    }

    /// The name of a fragment by its number, from 0 in the order in which they were added. `None` if no fragment has the number.
    pub fn fragment_name(&self, number: usize) -> Option<&'a [u8]> {
        self.shared.read().name(number)
    }

    /// The numbers that fragments have, present or not. Those of removed fragments are left out, so there may be gaps.
    ///
    /// ```
    /// let library = pef::link("versions 1 0 0\n")?;
    /// let context = pef::Context::new()?;
    /// context.add("A", &library)?;
    /// context.add("B", &library)?;
    /// context.remove("A")?;
    /// assert_eq!(context.fragment_numbers(), [1]);
    /// # Ok::<(), Box<dyn std::error::Error>>(())
    /// ```
    pub fn fragment_numbers(&self) -> Vec<usize> {
        let context = self.shared.read();
        std::iter::successors(context.next_fragment(0), |number| context.next_fragment(number + 1)).collect()
    }
}

impl fmt::Debug for Context<'_> {
    fn fmt(&self, out: &mut fmt::Formatter<'_>) -> fmt::Result {
        let names: Vec<_> = self.fragment_numbers().into_iter().filter_map(|number| self.fragment_name(number)).map(Text).collect();
        out.debug_struct("Context").field("fragments", &names).finish()
    }
}

/// A library that fragments of a context name, and that no fragment of it has the name of.
#[derive(Clone, Copy, PartialEq, Eq)]
#[non_exhaustive]
pub struct LackingLibrary<'a> {
    /// Its name.
    pub name: &'a [u8],
    /// Whether each of these fragments can be prepared without it.
    pub weak: bool,
}

impl fmt::Debug for LackingLibrary<'_> {
    fn fmt(&self, out: &mut fmt::Formatter<'_>) -> fmt::Result {
        out.debug_struct("LackingLibrary").field("name", &Text(self.name)).field("weak", &self.weak).finish()
    }
}

/// What the symbols of a stub are: numbers from F0000000 (hexadecimal) on, 16 apart, if nothing else is said.
#[derive(Clone, Copy, Debug, PartialEq, Eq)]
#[non_exhaustive]
pub enum StubValues {
    /// Absolute numbers: the first symbol is `first`, and each later one `step` more.
    Numbers {
        /// The first number.
        first: u32,
        /// How far one is from the next.
        step: u32,
    },
    /// Memory: a symbol of code is a `word`, which an emulator catches, and a `blr`. A transition vector leads to such code. A symbol of data
    /// or TOC is so many `zeros`.
    Memory {
        /// The word.
        word: u32,
        /// How many zeros.
        zeros: u32,
    },
}

impl Default for StubValues {
    fn default() -> Self {
        Self::Numbers { first: 0xF000_0000, step: 16 }
    }
}

impl StubValues {
    fn options(self) -> sys::pef_stub_options {
        match self {
            Self::Numbers { first, step } => sys::pef_stub_options { first, step, ..sys::PEF_NUMBERED_STUBS },
            Self::Memory { word, zeros } => sys::pef_stub_options { word, zeros, ..sys::PEF_STUBS_IN_MEMORY },
        }
    }
}

/// The stub of a library: a container that stands for it.
#[derive(Clone, PartialEq, Eq)]
pub struct Stub {
    library: Vec<u8>,
    contents: Vec<u8>,
    symbols: usize,
}

impl Stub {
    /// The name of the library.
    pub fn library(&self) -> &[u8] {
        &self.library
    }

    /// The container. Its exports say which symbol has which value.
    pub fn contents(&self) -> &[u8] {
        &self.contents
    }

    /// How many symbols it exports.
    pub fn symbol_count(&self) -> usize {
        self.symbols
    }
}

impl fmt::Debug for Stub {
    fn fmt(&self, out: &mut fmt::Formatter<'_>) -> fmt::Result {
        out.debug_struct("Stub").field("library", &Text(&self.library)).field("symbols", &self.symbols).finish()
    }
}

/// Why there is no stub of a library.
fn stub_error(number: u32, library: &[u8]) -> Error {
    let nowhere = sys::pef_place { part: sys::PEF_NOWHERE, row: 0, field: 0, offset: sys::PEF_NO_OFFSET };
    Error::of_preparation(number, &raw::Names { library, ..raw::Names::default() }, nowhere)
}

/// What the symbols of the next of several stubs are. The first number may be one that no symbol can have.
struct NextValues {
    values: StubValues,
    first: u64,
}

impl NextValues {
    fn new(values: StubValues) -> Self {
        let first = match values {
            StubValues::Numbers { first, .. } => first.into(),
            StubValues::Memory { .. } => 0,
        };
        Self { values, first }
    }

    /// The next stub. Its numbers go on from those of the ones before.
    fn stub(&mut self, context: &Context<'_>, library: &[u8]) -> Result<Stub, Error> {
        let (step, first) = match self.values {
            StubValues::Numbers { step, .. } => (step, u32::try_from(self.first)),
            StubValues::Memory { .. } => return context.stub(library, self.values),
        };
        let stub =
            context.stub(library, first.map_or(StubValues::Numbers { first: 0, step: 0 }, |first| StubValues::Numbers { first, step }))?;
        if first.is_err() && stub.symbols > 0 {
            return Err(stub_error(sys::PEF_PAST_LAST_NUMBER, library));
        }
        self.first += u64::from(step) * stub.symbols as u64;
        Ok(stub)
    }
}

/// A section that a preparation would place.
#[derive(Clone, Copy, Debug, PartialEq, Eq)]
#[non_exhaustive]
pub struct NewSection {
    /// The number of its fragment, for [`Context::fragment_name`].
    pub fragment: usize,
    /// Its number in the fragment's container.
    pub number: u32,
    /// What it is for.
    pub kind: SectionKind,
    /// How instances of it are shared.
    pub share: Share,
    /// How many bytes it takes.
    pub size: u64,
    /// Its address has to be a multiple of this.
    pub alignment: u64,
}

impl NewSection {
    fn of(row: &sys::pef_new_section) -> Self {
        Self {
            fragment: row.fragment,
            number: row.section,
            kind: row.kind.into(),
            share: row.share.into(),
            size: row.size,
            alignment: row.alignment,
        }
    }
}

/// A library that a fragment names, and that no fragment of the context serves.
///
/// ```
/// let app = pef::link("library Tools 2 1 -\n")?;
/// let context = pef::Context::new()?;
/// context.add("App", &app)?;
/// for library in context.missing("App")? {
///     let by = context.fragment_name(library.fragment).unwrap_or_default();
///     println!("{} needs {}", by.escape_ascii(), library.name.escape_ascii());
///     assert!(!library.weak && library.found.is_none());
/// }
/// # Ok::<(), Box<dyn std::error::Error>>(())
/// ```
#[derive(Clone, Copy, PartialEq, Eq)]
#[non_exhaustive]
pub struct MissingLibrary<'a> {
    /// Its name.
    pub name: &'a [u8],
    /// The number of the fragment that names it, for [`Context::fragment_name`].
    pub fragment: usize,
    /// The version against which that fragment was linked.
    pub current_version: u32,
    /// The oldest version of it that fits.
    pub old_imp_version: u32,
    /// Whether it may stay missing.
    pub weak: bool,
    /// The current version of the fragment with its name, and the oldest definition that this one serves, if there is such a fragment.
    /// They don't fit.
    pub found: Option<(u32, u32)>,
}

impl<'a> MissingLibrary<'a> {
    fn of(name: &'a [u8], row: &sys::pef_missing) -> Self {
        Self {
            name,
            fragment: row.fragment,
            current_version: row.current_version,
            old_imp_version: row.old_imp_version,
            weak: row.is_weak,
            found: row.is_found.then_some((row.found_version, row.found_old_def_version)),
        }
    }
}

impl fmt::Debug for MissingLibrary<'_> {
    fn fmt(&self, out: &mut fmt::Formatter<'_>) -> fmt::Result {
        out.debug_struct("MissingLibrary")
            .field("name", &Text(self.name))
            .field("fragment", &self.fragment)
            .field("current_version", &self.current_version)
            .field("old_imp_version", &self.old_imp_version)
            .field("weak", &self.weak)
            .field("found", &self.found)
            .finish()
    }
}

/// An open connection to a fragment, with its closure: that fragment and all that it needs. It is closed when it is dropped, or by
/// [`close`](Self::close), which says so.
///
/// ```
/// let tools = pef::link("section data data process 4 4\nexport answer data data 0\n")?;
/// let context = pef::Context::new()?;
/// context.add("Tools", &tools)?;
/// {
///     let connection = context.prepare("Tools")?;
///     assert!(context.is_present("Tools"));
///     assert_eq!(connection.root().symbol("answer"), Some(0x10000));
/// }
/// assert!(!context.is_present("Tools"));
/// # Ok::<(), Box<dyn std::error::Error>>(())
/// ```
///
/// It isn't used after it is closed, nor is what was read of it:
///
/// ```compile_fail,E0382
/// let context = pef::Context::new().unwrap();
/// let connection = context.prepare("Tools").unwrap();
/// connection.close().unwrap();
/// connection.fragments();
/// ```
///
/// ```compile_fail,E0505
/// let context = pef::Context::new().unwrap();
/// let connection = context.prepare("Tools").unwrap();
/// let tools = connection.root();
/// connection.close().unwrap();
/// tools.sections();
/// ```
#[must_use = "a connection that is dropped is closed"]
pub struct Connection<'a> {
    shared: Arc<Shared<'a>>,
    number: u32,
    is_open: bool,
}

/// What a call for an open connection needs.
const OPEN: &str = "the connection is open";

impl<'a> Connection<'a> {
    /// Its number, which the context gives to no other.
    pub fn number(&self) -> u32 {
        self.number
    }

    /// The closure: libraries before the fragments that need them, except in cycles, and the root last.
    pub fn fragments(&self) -> Fragments<'_, 'a> {
        self.those(Which::All).expect(OPEN)
    }

    /// The same fragments in the order in which they are initialized.
    pub fn init_order(&self) -> Fragments<'_, 'a> {
        self.those(Which::InitOrder).expect(OPEN)
    }

    /// The fragments that its preparation placed, in the order in which they are initialized. Copy exactly these into the machine, and
    /// initialize exactly these: the others of the closure were present already, and may have run since.
    pub fn new_fragments(&self) -> Fragments<'_, 'a> {
        self.those(Which::New).expect(OPEN)
    }

    /// The fragments that [`close`](Self::close) would release, because no other open connection needs them, the last to be initialized
    /// first. Call their termination routines in this order, and then close.
    ///
    /// # Errors
    ///
    /// 99.
    pub fn released(&self) -> Result<Fragments<'_, 'a>, Error> {
        self.those(Which::Released)
    }

    /// The fragment that was prepared.
    pub fn root(&self) -> Fragment<'_, 'a> {
        self.fragments().next_back().expect("a closure has its root")
    }

    /// Closes the connection. Fragments that no other open connection needs are no longer present.
    ///
    /// # Errors
    ///
    /// None is known: this connection is open.
    pub fn close(mut self) -> Result<(), Error> {
        self.is_open = false;
        self.shared.write().close(self.number).map_err(Error::new)
    }

    fn those(&self, which: Which) -> Result<Fragments<'_, 'a>, Error> {
        let numbers = self.shared.read().fragments(which, self.number).map_err(Error::new)?;
        Ok(Fragments { connection: self, numbers: numbers.into_iter() })
    }
}

impl Drop for Connection<'_> {
    fn drop(&mut self) {
        if self.is_open {
            // the connection is open, so it is closed
            let _ = self.shared.write().close(self.number);
        }
    }
}

impl fmt::Debug for Connection<'_> {
    fn fmt(&self, out: &mut fmt::Formatter<'_>) -> fmt::Result {
        let names: Vec<_> = self.fragments().map(|it| it.name()).map(Text).collect();
        out.debug_struct("Connection").field("number", &self.number).field("fragments", &names).finish()
    }
}

/// Fragments of a connection.
///
/// ```
/// let (tools, app) = (pef::link("")?, pef::link("library Tools 0 0 -\n")?);
/// let context = pef::Context::new()?;
/// context.add("App", &app)?;
/// context.add("Tools", &tools)?;
/// let connection = context.prepare("App")?;
/// let names: Vec<_> = connection.fragments().map(|it| it.name()).collect();
/// assert_eq!(names, [b"Tools".as_slice(), b"App"]);
/// # Ok::<(), Box<dyn std::error::Error>>(())
/// ```
#[derive(Clone)]
pub struct Fragments<'c, 'a> {
    connection: &'c Connection<'a>,
    numbers: std::vec::IntoIter<usize>,
}

impl<'c, 'a> Iterator for Fragments<'c, 'a> {
    type Item = Fragment<'c, 'a>;

    fn next(&mut self) -> Option<Self::Item> {
        let number = self.numbers.next()?;
        Some(Fragment { connection: self.connection, number })
    }

    fn size_hint(&self) -> (usize, Option<usize>) {
        self.numbers.size_hint()
    }
}

impl DoubleEndedIterator for Fragments<'_, '_> {
    fn next_back(&mut self) -> Option<Self::Item> {
        let number = self.numbers.next_back()?;
        Some(Fragment { connection: self.connection, number })
    }
}

impl ExactSizeIterator for Fragments<'_, '_> {}

impl std::iter::FusedIterator for Fragments<'_, '_> {}

impl fmt::Debug for Fragments<'_, '_> {
    fn fmt(&self, out: &mut fmt::Formatter<'_>) -> fmt::Result {
        out.debug_list().entries(self.clone()).finish()
    }
}

/// A fragment of a connection's closure.
///
/// ```
/// let tools = pef::link("section data data process 4 4\nexport answer data data 0\nmain data 0\n")?;
/// let context = pef::Context::new()?;
/// context.add("Tools", &tools)?;
/// let connection = context.prepare("Tools")?;
/// let fragment = connection.root();
/// assert_eq!((fragment.name(), fragment.symbol("answer"), fragment.entries().main), (&b"Tools"[..], Some(0x10000), Some(0x10000)));
/// # Ok::<(), Box<dyn std::error::Error>>(())
/// ```
#[derive(Clone, Copy)]
pub struct Fragment<'c, 'a> {
    connection: &'c Connection<'a>,
    number: usize,
}

impl<'c, 'a> Fragment<'c, 'a> {
    /// Its number, from 0 in the order in which fragments were added.
    pub fn number(&self) -> usize {
        self.number
    }

    /// The name that it was added with.
    pub fn name(&self) -> &'a [u8] {
        self.read().name(self.number).unwrap_or(&[])
    }

    /// Its sections in memory, by their numbers.
    pub fn sections(&self) -> PlacedSections<'c, 'a> {
        PlacedSections { fragment: *self, numbers: 0..self.read().section_count(self.number) }
    }

    /// The section in memory with a number.
    pub fn section(&self, number: usize) -> Option<PlacedSection<'c, 'a>> {
        let row = self.read().section(self.connection.number, self.number, number)?;
        Some(PlacedSection { fragment: *self, number, row })
    }

    /// The addresses of its entry points.
    pub fn entries(&self) -> Entries {
        self.read().entries(self.connection.number, self.number).map_or_else(Entries::default, Entries::of)
    }

    /// The address of its first export of a name.
    pub fn symbol<N: AsRef<[u8]> + ?Sized>(&self, name: &N) -> Option<u32> {
        self.read().symbol(self.connection.number, self.number, name.as_ref())
    }

    /// The address of the export with this number in [`Container::exports`](crate::Container::exports).
    pub fn export_address(&self, number: usize) -> Option<u32> {
        self.read().export_address(self.connection.number, self.number, number)
    }

    /// What the import with this number in [`Container::imports`](crate::Container::imports) means. Exports that are passed on have been
    /// followed.
    pub fn import_target(&self, number: usize) -> Option<Target<'c, 'a>> {
        let row = self.read().import_target(self.connection.number, self.number, number)?;
        Some(self.target(&row))
    }

    /// The number of its first import with a name, for [`import_target`](Self::import_target).
    pub fn import_named<N: AsRef<[u8]> + ?Sized>(&self, name: &N) -> Option<usize> {
        self.read().import_named(self.connection.number, self.number, name.as_ref())
    }

    /// How many exports it has.
    pub fn export_count(&self) -> usize {
        self.read().export_count(self.connection.number, self.number)
    }

    /// The export with this number in [`Container::exports`](crate::Container::exports), with where it ends.
    pub fn export(&self, number: usize) -> Option<PlacedExport<'c, 'a>> {
        let (name, row) = self.read().export(self.connection.number, self.number, number)?;
        Some(self.placed(name, &row))
    }

    /// Its first export with a name, with where it ends.
    pub fn export_named<N: AsRef<[u8]> + ?Sized>(&self, name: &N) -> Option<PlacedExport<'c, 'a>> {
        let (name, row) = self.read().export_named(self.connection.number, self.number, name.as_ref())?;
        Some(self.placed(name, &row))
    }

    fn placed(&self, name: &'a [u8], row: &sys::pef_fragment_export) -> PlacedExport<'c, 'a> {
        PlacedExport {
            number: row.number,
            name,
            class: row.symbol_class.into(),
            target: self.target(&row.target),
            import: row.is_reexport.then_some(row.import_number),
        }
    }

    fn target(&self, row: &sys::pef_target) -> Target<'c, 'a> {
        match row.kind {
            sys::PEF_TARGET_MISSING => Target::Missing,
            sys::PEF_TARGET_ABSOLUTE => Target::Absolute(row.address),
            _ => Target::InSection {
                fragment: Fragment { connection: self.connection, number: row.fragment },
                section: row.section,
                offset: row.offset,
                address: row.address,
            },
        }
    }

    fn read(&self) -> RwLockReadGuard<'c, raw::Context<'a>> {
        self.connection.shared.read()
    }
}

impl fmt::Debug for Fragment<'_, '_> {
    fn fmt(&self, out: &mut fmt::Formatter<'_>) -> fmt::Result {
        out.debug_struct("Fragment").field("number", &self.number).field("name", &Text(self.name())).finish()
    }
}

/// The addresses at which a fragment is entered, as far as it has them.
///
/// ```
/// let app = pef::link("section data data process 4 8\nmain data 0\ninit data 4\n")?;
/// let context = pef::Context::new()?;
/// context.add("App", &app)?;
/// let entries = context.prepare("App")?.root().entries();
/// assert_eq!((entries.main, entries.init, entries.term), (Some(0x10000), Some(0x10004), None));
/// # Ok::<(), Box<dyn std::error::Error>>(())
/// ```
#[derive(Clone, Copy, Debug, Default, PartialEq, Eq, Hash)]
pub struct Entries {
    /// The initialization routine.
    pub init: Option<u32>,
    /// The main entry point.
    pub main: Option<u32>,
    /// The termination routine.
    pub term: Option<u32>,
}

impl Entries {
    fn of(row: sys::pef_entries) -> Self {
        Self { init: row.has_init.then_some(row.init), main: row.has_main.then_some(row.main), term: row.has_term.then_some(row.term) }
    }
}

/// An export of a fragment, with where it ends.
///
/// ```
/// let tools = pef::link("library Old 1 0 weak\nimport gone data weak\nabsolute none data 0\nreexport gone data gone\n")?;
/// let context = pef::Context::new()?;
/// context.add("Tools", &tools)?;
/// let connection = context.prepare("Tools")?;
/// let (none, gone) = (connection.root().export_named("none").unwrap(), connection.root().export_named("gone").unwrap());
/// assert!(matches!(none.target, pef::Target::Absolute(0)) && none.import.is_none());
/// assert!(matches!(gone.target, pef::Target::Missing) && gone.import == Some(0));
/// # Ok::<(), Box<dyn std::error::Error>>(())
/// ```
#[derive(Clone, Copy)]
#[non_exhaustive]
pub struct PlacedExport<'c, 'a> {
    /// Its number.
    pub number: usize,
    /// Its name.
    pub name: &'a [u8],
    /// What it names.
    pub class: SymbolClass,
    /// Where it ends. It is missing if the export passes on an import that is missing.
    pub target: Target<'c, 'a>,
    /// The number of the import that it passes on.
    pub import: Option<usize>,
}

impl fmt::Debug for PlacedExport<'_, '_> {
    fn fmt(&self, out: &mut fmt::Formatter<'_>) -> fmt::Result {
        out.debug_struct("PlacedExport")
            .field("number", &self.number)
            .field("name", &Text(self.name))
            .field("class", &self.class)
            .field("target", &self.target)
            .field("import", &self.import)
            .finish()
    }
}

/// Where an address is.
///
/// ```
/// let tools = pef::link("section data data process 4 8\nexport answer data data 4\n")?;
/// let context = pef::Context::new()?;
/// context.add("Tools", &tools)?;
/// let connection = context.prepare("Tools")?;
/// let it = context.at(0x10006).unwrap();
/// assert_eq!((it.fragment, it.section, it.offset), (connection.root().number(), 0, 6));
/// let nearest = it.nearest.unwrap();
/// assert_eq!((nearest.name, nearest.offset), (b"answer".as_slice(), 4));
/// assert!(context.at(0x10008).is_none());
/// # Ok::<(), Box<dyn std::error::Error>>(())
/// ```
#[derive(Clone, Copy, Debug, PartialEq, Eq, Hash)]
#[non_exhaustive]
pub struct Location<'a> {
    /// The [number](Fragment::number) of the fragment.
    pub fragment: usize,
    /// The number of its section.
    pub section: usize,
    /// The offset in the section.
    pub offset: u32,
    /// The export in this section with the greatest offset that isn't greater, the first if several have it.
    pub nearest: Option<NearestExport<'a>>,
}

/// The nearest export at an address or before it.
#[derive(Clone, Copy, PartialEq, Eq, Hash)]
#[non_exhaustive]
pub struct NearestExport<'a> {
    /// Its number.
    pub number: usize,
    /// Its name.
    pub name: &'a [u8],
    /// What it names.
    pub class: SymbolClass,
    /// Its offset in the section.
    pub offset: u32,
}

impl fmt::Debug for NearestExport<'_> {
    fn fmt(&self, out: &mut fmt::Formatter<'_>) -> fmt::Result {
        out.debug_struct("NearestExport")
            .field("number", &self.number)
            .field("name", &Text(self.name))
            .field("class", &self.class)
            .field("offset", &self.offset)
            .finish()
    }
}

/// What an import means, or where an export ends.
///
/// ```
/// let app = pef::link("library Tools 1 0 weak\nimport answer data weak\n")?;
/// let context = pef::Context::new()?;
/// context.add("App", &app)?;
/// let connection = context.prepare("App")?;
/// assert!(matches!(connection.root().import_target(0), Some(pef::Target::Missing)));
/// # Ok::<(), Box<dyn std::error::Error>>(())
/// ```
#[derive(Clone, Copy, Debug)]
#[non_exhaustive]
pub enum Target<'c, 'a> {
    /// That of a weak import, or of an import from a weak library, which is missing.
    Missing,
    /// A number.
    Absolute(u32),
    /// A place in a section of a fragment.
    InSection {
        /// The fragment.
        fragment: Fragment<'c, 'a>,
        /// The number of the section.
        section: u32,
        /// The offset in it.
        offset: u32,
        /// The address.
        address: u32,
    },
}

impl Target<'_, '_> {
    /// What was added wherever the import is relocated: 0 for a missing target.
    pub fn address(&self) -> u32 {
        match *self {
            Self::Missing => 0,
            Self::Absolute(address) | Self::InSection { address, .. } => address,
        }
    }
}

/// A section in memory. Its bytes are those right after relocation.
///
/// ```
/// let tools = pef::link("section data data process 4 8\nbytes data 0000002A\n")?;
/// let context = pef::Context::new()?;
/// context.add("Tools", &tools)?;
/// let connection = context.prepare("Tools")?;
/// let section = connection.root().section(0).unwrap();
/// assert_eq!((section.address(), section.size(), section.kind()), (0x10000, 8, pef::SectionKind::Data));
/// assert_eq!(section.to_vec()?, [0, 0, 0, 42, 0, 0, 0, 0]);
/// # Ok::<(), Box<dyn std::error::Error>>(())
/// ```
#[derive(Clone, Copy)]
pub struct PlacedSection<'c, 'a> {
    fragment: Fragment<'c, 'a>,
    number: usize,
    row: sys::pef_fragment_section,
}

impl<'c, 'a> PlacedSection<'c, 'a> {
    /// Its number in the container.
    pub fn number(&self) -> usize {
        self.number
    }

    /// The fragment that has it.
    pub fn fragment(&self) -> Fragment<'c, 'a> {
        self.fragment
    }

    /// Where it begins.
    pub fn address(&self) -> u32 {
        self.row.address
    }

    /// How many bytes it has.
    pub fn size(&self) -> usize {
        self.row.size
    }

    /// What it holds.
    pub fn kind(&self) -> SectionKind {
        self.row.kind.into()
    }

    /// How its instances are shared.
    pub fn share(&self) -> Share {
        self.row.share.into()
    }

    /// Copies its bytes to the front of a buffer, as the memory of a machine.
    ///
    /// # Errors
    ///
    /// 200 if the buffer is too small.
    pub fn copy_to(&self, buffer: &mut [u8]) -> Result<(), Error> {
        self.fragment.read().copy_section(self.fragment.number, self.number, buffer).map(drop).map_err(Error::new)
    }

    /// A copy of its bytes.
    ///
    /// # Errors
    ///
    /// 99.
    pub fn to_vec(&self) -> Result<Vec<u8>, Error> {
        self.fragment.read().section_bytes(self.fragment.number, self.number, self.row.size).map_err(Error::new)
    }
}

impl fmt::Debug for PlacedSection<'_, '_> {
    fn fmt(&self, out: &mut fmt::Formatter<'_>) -> fmt::Result {
        out.debug_struct("PlacedSection")
            .field("number", &self.number)
            .field("address", &self.row.address)
            .field("size", &self.row.size)
            .field("kind", &self.kind())
            .field("share", &self.share())
            .finish_non_exhaustive()
    }
}

/// The sections of a fragment that are in memory.
///
/// ```
/// let app = pef::link("section code code global 4 4\nsection data data process 4 4\n")?;
/// let context = pef::Context::new()?;
/// context.add("App", &app)?;
/// let connection = context.prepare("App")?;
/// let addresses: Vec<_> = connection.root().sections().map(|it| it.address()).collect();
/// assert_eq!(addresses, [0x10000, 0x10010]);
/// # Ok::<(), Box<dyn std::error::Error>>(())
/// ```
#[derive(Clone)]
pub struct PlacedSections<'c, 'a> {
    fragment: Fragment<'c, 'a>,
    numbers: std::ops::Range<usize>,
}

impl<'c, 'a> Iterator for PlacedSections<'c, 'a> {
    type Item = PlacedSection<'c, 'a>;

    fn next(&mut self) -> Option<Self::Item> {
        self.fragment.section(self.numbers.next()?)
    }

    fn size_hint(&self) -> (usize, Option<usize>) {
        self.numbers.size_hint()
    }
}

impl ExactSizeIterator for PlacedSections<'_, '_> {}

impl std::iter::FusedIterator for PlacedSections<'_, '_> {}

impl fmt::Debug for PlacedSections<'_, '_> {
    fn fmt(&self, out: &mut fmt::Formatter<'_>) -> fmt::Result {
        out.debug_list().entries(self.clone()).finish()
    }
}
