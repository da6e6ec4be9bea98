//! Files of the classic Mac OS: their forks, resources, fragments and containers.

use alloc::vec::Vec;
use core::fmt;

use pef_sys as sys;

use crate::code::Code;
use crate::error::Error;
use crate::raw;
use crate::rows::all_rows;
use crate::tables::{codes, Count, Text};

codes! {
    /// What a fragment is for.
    ///
    /// ```
    /// assert_eq!(pef::Usage::from(1), pef::Usage::Application);
    /// ```
    Usage, text {
        // Usage: written by tools/declarations from docs/codes.table
        ImportLibrary = PEF_USAGE_IMPORT_LIBRARY "library" "import library",
        Application = PEF_USAGE_APPLICATION "application" "application",
        DropInAddition = PEF_USAGE_DROP_IN_ADDITION "addition" "drop-in addition",
        StubLibrary = PEF_USAGE_STUB_LIBRARY "stub" "stub library",
        WeakStubLibrary = PEF_USAGE_WEAK_STUB_LIBRARY "weak-stub" "weak stub library",
        // the end of what is written
    }
}

codes! {
    /// Where the container of a fragment is.
    ///
    /// ```
    /// assert_eq!(pef::Locator::from(1), pef::Locator::DataFork);
    /// ```
    Locator, text {
        // Locator: written by tools/declarations from docs/codes.table
        Memory = PEF_LOCATOR_MEMORY "memory" "memory",
        DataFork = PEF_LOCATOR_DATA_FORK "data" "data fork",
        Resource = PEF_LOCATOR_RESOURCE "resource" "resource",
        // the end of what is written
    }
}

/// What a file is.
///
/// ```
/// assert_eq!(pef::MacFile::read(b"any bytes").kind(), pef::FileKind::Other);
/// ```
#[derive(Clone, Copy, Debug, PartialEq, Eq, Hash)]
#[non_exhaustive]
pub enum FileKind {
    /// In no format of those below.
    Other,
    /// It begins as a container.
    Container,
    /// MacBinary.
    MacBinary,
    /// AppleSingle.
    AppleSingle,
    /// AppleDouble, which has a resource fork and no data fork.
    AppleDouble,
    /// AppleSingle or AppleDouble with a damaged header.
    DamagedApple,
    /// A resource fork as it is.
    ResourceFork,
}

impl FileKind {
    fn of(number: u32) -> Self {
        match number {
            sys::PEF_FILE_CONTAINER => Self::Container,
            sys::PEF_FILE_MAC_BINARY => Self::MacBinary,
            sys::PEF_FILE_APPLE_SINGLE => Self::AppleSingle,
            sys::PEF_FILE_APPLE_DOUBLE => Self::AppleDouble,
            sys::PEF_FILE_DAMAGED_APPLE => Self::DamagedApple,
            sys::PEF_FILE_RESOURCE_FORK => Self::ResourceFork,
            _ => Self::Other,
        }
    }
}

/// A part of a file that an error is about, or that has a container.
///
/// ```
/// assert_eq!(pef::MacPart::Resource { kind: *b"cfrg", id: 0 }.to_string(), "resource cfrg 0");
/// # Ok::<(), Box<dyn std::error::Error>>(())
/// ```
#[derive(Clone, Copy, Debug, PartialEq, Eq, Hash)]
#[non_exhaustive]
pub enum MacPart {
    /// The file itself, with its header.
    File,
    /// The other file, which has the resource fork.
    ResourceFile,
    /// The data fork.
    DataFork,
    /// The resource fork.
    ResourceFork,
    /// The table of fragments, which is the resource `cfrg` 0.
    FragmentTable,
    /// A resource.
    Resource {
        /// The four characters of its type.
        kind: [u8; 4],
        /// Its id.
        id: i16,
    },
}

impl fmt::Display for MacPart {
    fn fmt(&self, out: &mut fmt::Formatter<'_>) -> fmt::Result {
        match self {
            Self::File => out.write_str("file"),
            Self::ResourceFile => out.write_str("resource file"),
            Self::DataFork => out.write_str("data fork"),
            Self::ResourceFork => out.write_str("resource fork"),
            Self::FragmentTable => out.write_str("cfrg 0"),
            Self::Resource { kind, id } => write!(out, "resource {} {id}", kind.escape_ascii()),
        }
    }
}

/// An error of a part of a file.
///
/// ```
/// // The header of an AppleSingle file is cut.
/// let file = pef::MacFile::read(b"\x00\x05\x16\x00\x00\x02\x00\x00cut");
/// for damage in file.errors() {
///     println!("{damage}: {}", damage.code.help());
/// }
/// assert!(!file.errors().is_empty());
/// # Ok::<(), Box<dyn std::error::Error>>(())
/// ```
#[derive(Clone, Copy, Debug, PartialEq, Eq)]
#[non_exhaustive]
pub struct Damage {
    /// What it is.
    pub code: Code,
    /// The part.
    pub part: MacPart,
    /// The offset in that part that it is about.
    pub offset: Option<usize>,
}

impl fmt::Display for Damage {
    /// Writes the number, the name, the part and the offset.
    fn fmt(&self, out: &mut fmt::Formatter<'_>) -> fmt::Result {
        write!(out, "{} in {}", self.code, self.part)?;
        self.offset.map_or(Ok(()), |offset| write!(out, " at 0x{offset:X}"))
    }
}

/// What the Finder knows of a file.
///
/// ```no_run
/// let file = std::fs::read("Calculator.bin")?;
/// if let Some(finder) = pef::MacFile::read(&file).finder() {
///     println!("{} {}", finder.file_type.escape_ascii(), finder.creator.escape_ascii());
/// }
/// # Ok::<(), Box<dyn std::error::Error>>(())
/// ```
#[derive(Clone, Copy, Debug, PartialEq, Eq)]
#[non_exhaustive]
#[allow(missing_docs)]
pub struct Finder {
    pub file_type: [u8; 4],
    pub creator: [u8; 4],
    pub flags: u16,
    pub vertical: i16,
    pub horizontal: i16,
    pub window: u16,
}

/// A resource.
///
/// ```no_run
/// let file = std::fs::read("Calculator.bin")?;
/// for resource in pef::MacFile::read(&file).resources() {
///     println!("{} {} {:?}", resource.kind.escape_ascii(), resource.id, resource.bytes.map(<[u8]>::len));
/// }
/// # Ok::<(), Box<dyn std::error::Error>>(())
/// ```
#[derive(Clone, Copy, PartialEq, Eq)]
#[non_exhaustive]
pub struct Resource<'a> {
    /// The four characters of its type.
    pub kind: [u8; 4],
    /// Its id.
    pub id: i16,
    /// Its name, if it has one that can be read.
    pub name: Option<&'a [u8]>,
    /// Its attributes.
    pub attributes: u8,
    /// Its bytes, if they are there. Those of a [compressed](Self::is_compressed) one aren't those of the resource.
    pub bytes: Option<&'a [u8]>,
}

impl Resource<'_> {
    /// Whether its bytes are compressed.
    pub fn is_compressed(&self) -> bool {
        self.attributes & 1 != 0
    }
}

impl fmt::Debug for Resource<'_> {
    fn fmt(&self, out: &mut fmt::Formatter<'_>) -> fmt::Result {
        out.debug_struct("Resource")
            .field("kind", &Text(&self.kind))
            .field("id", &self.id)
            .field("name", &self.name.map(Text))
            .field("attributes", &self.attributes)
            .field("bytes", &self.bytes.map(Count))
            .finish()
    }
}

/// A member of the table of fragments: what the table says of a fragment, and its container.
///
/// ```no_run
/// let file = std::fs::read("Calculator.bin")?;
/// for member in pef::MacFile::read(&file).members() {
///     println!("{} {}", member.usage, member.name.unwrap_or_default().escape_ascii());
/// }
/// # Ok::<(), Box<dyn std::error::Error>>(())
/// ```
#[derive(Clone, Copy, PartialEq, Eq)]
#[non_exhaustive]
#[allow(missing_docs)]
pub struct Member<'a> {
    pub number: usize,
    /// The name of the fragment, if it can be read.
    pub name: Option<&'a [u8]>,
    /// Four characters: `pwpc` for PowerPC, `m68k` for CFM-68K.
    pub architecture: [u8; 4],
    pub update_level: u8,
    pub current_version: u32,
    pub old_def_version: u32,
    pub stack_size: u32,
    pub directory_or_flags: u16,
    pub usage: Usage,
    pub locator: Locator,
    /// The offset of its container in the data fork, or the type of the resource.
    pub offset: u32,
    /// The length of its container in the data fork, or the id of the resource.
    pub length: u32,
    pub space_id: u32,
    pub fork_instance: u16,
    pub extension_count: u16,
    pub size: u16,
    /// Its container, in the data fork or in a resource, if it is there.
    pub container: Option<&'a [u8]>,
}

impl Member<'_> {
    /// Where its container begins.
    fn place(&self) -> Option<(MacPart, usize)> {
        match self.locator {
            Locator::DataFork => Some((MacPart::DataFork, self.offset as usize)),
            Locator::Resource => Some((MacPart::Resource { kind: self.offset.to_be_bytes(), id: self.resource_id() }, 0)),
            _ => None,
        }
    }

    /// The lower half of a number has the id.
    fn resource_id(&self) -> i16 {
        self.length as u16 as i16
    }
}

impl fmt::Debug for Member<'_> {
    fn fmt(&self, out: &mut fmt::Formatter<'_>) -> fmt::Result {
        out.debug_struct("Member")
            .field("number", &self.number)
            .field("name", &self.name.map(Text))
            .field("architecture", &Text(&self.architecture))
            .field("usage", &self.usage)
            .field("locator", &self.locator)
            .field("offset", &self.offset)
            .field("length", &self.length)
            .field("container", &self.container.map(Count))
            .finish_non_exhaustive()
    }
}

/// A container in a file: where it is, and the members that name it.
///
/// ```no_run
/// let file = std::fs::read("Calculator.bin")?;
/// for found in pef::MacFile::read(&file).containers() {
///     let names: Vec<_> = found.names().map(|it| it.escape_ascii().to_string()).collect();
///     println!("{} in {} at {:X}", names.join(" "), found.part, found.offset);
/// }
/// # Ok::<(), Box<dyn std::error::Error>>(())
/// ```
#[derive(Clone, PartialEq, Eq)]
#[non_exhaustive]
pub struct FoundContainer<'a> {
    /// The part that it is in.
    pub part: MacPart,
    /// Its offset there.
    pub offset: usize,
    /// The members that name it.
    pub members: Vec<Member<'a>>,
    /// Its bytes. Those of a container that no member names go up to the end of the part.
    pub bytes: &'a [u8],
}

impl<'a> FoundContainer<'a> {
    /// The names of its fragments.
    pub fn names(&self) -> impl Iterator<Item = &'a [u8]> + '_ {
        self.members.iter().filter_map(|it| it.name)
    }
}

impl fmt::Debug for FoundContainer<'_> {
    fn fmt(&self, out: &mut fmt::Formatter<'_>) -> fmt::Result {
        out.debug_struct("FoundContainer")
            .field("part", &self.part)
            .field("offset", &self.offset)
            .field("members", &self.members)
            .field("bytes", &Count(self.bytes))
            .finish()
    }
}

/// A file of the classic Mac OS: in MacBinary, AppleSingle or AppleDouble, a resource fork, or any bytes with containers in them. It may be
/// damaged: [`errors`](Self::errors) has what is wrong, and the rest is read. All bytes that it gives are parts of the file.
///
/// ```
/// let mut bytes = b"before ".to_vec();
/// bytes.extend(pef::link("section data data process 4 4\nbytes data 0000002A\n")?);
/// let file = pef::MacFile::read(&bytes);
/// for found in file.containers() {
///     let container = pef::Container::read(found.bytes)?;
///     assert_eq!((found.offset, container.sections().count()), (7, 2));
/// }
/// assert!(file.errors().is_empty());
/// # Ok::<(), Box<dyn std::error::Error>>(())
/// ```
#[derive(Clone)]
pub struct MacFile<'a> {
    kind: FileKind,
    data_fork: Option<&'a [u8]>,
    resource_fork: Option<&'a [u8]>,
    name: Option<&'a [u8]>,
    comment: Option<&'a [u8]>,
    finder: Option<Finder>,
    resources: Vec<Resource<'a>>,
    members: Vec<Member<'a>>,
    errors: Vec<Damage>,
}

impl<'a> MacFile<'a> {
    /// Reads a file.
    pub fn read(file: &'a [u8]) -> Self {
        Self::read_both(file, None)
    }

    /// Reads a file whose resource fork is in another file: as it is, or in AppleDouble, AppleSingle or MacBinary. With the feature `std`,
    /// `resource_files` has the usual places of that.
    pub fn read_with_resources(file: &'a [u8], resources: &'a [u8]) -> Self {
        Self::read_both(file, Some(resources))
    }

    fn read_both(file: &'a [u8], resources: Option<&'a [u8]>) -> Self {
        let mut it = Self {
            kind: FileKind::of(raw::file_kind(file)),
            data_fork: None,
            resource_fork: None,
            name: None,
            comment: None,
            finder: None,
            resources: Vec::new(),
            members: Vec::new(),
            errors: Vec::new(),
        };
        if let Some(forks) = it.read_forks(file, MacPart::File) {
            it.data_fork = it.part(file, &forks.data_fork, MacPart::File);
            it.resource_fork = it.part(file, &forks.resource_fork, MacPart::File);
            it.name = it.part(file, &forks.name, MacPart::File);
            it.comment = it.part(file, &forks.comment, MacPart::File);
            it.finder = it.read_finder(&forks.finder);
        }
        if let Some(resources) = resources {
            it.resource_fork = it.other_fork(resources);
        }
        it.read_resources();
        it.read_members();
        it
    }

    /// What it is.
    pub fn kind(&self) -> FileKind {
        self.kind
    }

    /// The data fork.
    pub fn data_fork(&self) -> Option<&'a [u8]> {
        self.data_fork
    }

    /// The resource fork.
    pub fn resource_fork(&self) -> Option<&'a [u8]> {
        self.resource_fork
    }

    /// The name that the file had.
    pub fn name(&self) -> Option<&'a [u8]> {
        self.name
    }

    /// The comment that the file had.
    pub fn comment(&self) -> Option<&'a [u8]> {
        self.comment
    }

    /// What the Finder knows of it.
    pub fn finder(&self) -> Option<Finder> {
        self.finder
    }

    /// The resources, type by type.
    pub fn resources(&self) -> &[Resource<'a>] {
        &self.resources
    }

    /// The members of the table of fragments.
    pub fn members(&self) -> &[Member<'a>] {
        &self.members
    }

    /// What is wrong with its forks, resources, table of fragments and members.
    pub fn errors(&self) -> &[Damage] {
        &self.errors
    }

    /// The containers: those of members, those that are other resources, and those that a search finds in the data fork. Members over the
    /// same bytes have one container together.
    pub fn containers(&self) -> Vec<FoundContainer<'a>> {
        let mut found: Vec<FoundContainer<'a>> = Vec::new();
        for member in &self.members {
            if let (Some(bytes), Some((part, offset))) = (member.container, member.place()) {
                match found.iter_mut().find(|it| (it.part, it.offset) == (part, offset)) {
                    Some(known) => known.members.push(*member),
                    None => found.push(FoundContainer { part, offset, members: [*member].into(), bytes }),
                }
            }
        }
        let mut add = |part, offset, bytes| {
            if !found.iter().any(|it| (it.part, it.offset) == (part, offset)) {
                found.push(FoundContainer { part, offset, members: Vec::new(), bytes });
            }
        };
        for resource in &self.resources {
            match resource.bytes {
                Some(bytes) if containers_in(bytes).first() == Some(&0) => {
                    add(MacPart::Resource { kind: resource.kind, id: resource.id }, 0, bytes)
                }
                _ => {}
            }
        }
        let fork = self.data_fork.unwrap_or(&[]);
        for offset in containers_in(fork) {
            add(MacPart::DataFork, offset, fork.get(offset..).unwrap_or(&[]));
        }
        found
    }

    /// The container of the fragment with a name: of the first member with this name that isn't for CFM-68K. It isn't tested.
    ///
    /// # Errors
    ///
    /// 80 if there is none, or 87 to 98.
    pub fn container<N: AsRef<[u8]> + ?Sized>(&self, name: &N) -> Result<&'a [u8], Error> {
        match (self.data_fork, self.resource_fork) {
            (_, None) => Err(sys::PEF_NO_CONTAINER),
            (None, Some(resources)) => raw::file_container(resources, name.as_ref()),
            (Some(fork), Some(resources)) => raw::fork_container(fork, resources, name.as_ref()),
        }
        .map_err(Error::new)
    }

    // How it is read.

    /// Notes an error, unless the part is there or isn't.
    fn note(&mut self, number: u32, offset: usize, part: MacPart) {
        if !matches!(number, sys::PEF_OK | sys::PEF_NOT_THERE) {
            self.errors.push(Damage { code: number.into(), part, offset: (offset != sys::PEF_NO_OFFSET).then_some(offset) });
        }
    }

    fn read_forks(&mut self, file: &[u8], part: MacPart) -> Option<sys::pef_forks> {
        match raw::forks(file) {
            Ok(forks) => {
                self.note(forks.error, forks.error_offset, part);
                Some(forks)
            }
            Err(number) => {
                self.note(number, sys::PEF_NO_OFFSET, part);
                None
            }
        }
    }

    /// A part that is there, also if it passes the end of the file.
    fn part(&mut self, file: &'a [u8], it: &sys::pef_part, part: MacPart) -> Option<&'a [u8]> {
        self.note(it.error, it.error_offset, part);
        is_there(it.error).then(|| raw::part_of(file, it.bytes))
    }

    fn read_finder(&mut self, it: &sys::pef_finder) -> Option<Finder> {
        self.note(it.error, it.error_offset, MacPart::File);
        (it.error == sys::PEF_OK).then(|| Finder {
            file_type: it.file_type.to_be_bytes(),
            creator: it.creator.to_be_bytes(),
            flags: it.flags,
            vertical: it.vertical,
            horizontal: it.horizontal,
            window: it.window,
        })
    }

    /// The resource fork in another file. Bytes that aren't in a format are the fork as it is.
    fn other_fork(&mut self, file: &'a [u8]) -> Option<&'a [u8]> {
        let forks = self.read_forks(file, MacPart::ResourceFile)?;
        match FileKind::of(forks.kind) {
            FileKind::MacBinary | FileKind::AppleSingle | FileKind::AppleDouble => {
                self.part(file, &forks.resource_fork, MacPart::ResourceFile)
            }
            _ => Some(file),
        }
    }

    fn read_resources(&mut self) {
        let fork = match self.resource_fork {
            Some(fork) if !fork.is_empty() => fork,
            _ => return,
        };
        let rows = match raw::resource_map(fork) {
            Ok(map) => {
                self.note(map.error, map.error_offset, MacPart::ResourceFork);
                all_rows(|from, most| raw::resources(fork, from, most)).unwrap_or_default()
            }
            Err(number) => return self.note(number, sys::PEF_NO_OFFSET, MacPart::ResourceFork),
        };
        for row in rows {
            self.note(row.error, row.error_offset, MacPart::ResourceFork);
            self.note(row.name_error, row.name_error_offset, MacPart::ResourceFork);
            // a row with one of these is no resource
            if !(sys::PEF_RESOURCE_TYPE_CUT..=sys::PEF_REFERENCE_CUT).contains(&row.error) {
                self.resources.push(Resource {
                    kind: row.r#type.to_be_bytes(),
                    id: row.id,
                    name: (row.name_error == sys::PEF_OK).then(|| raw::part_of(fork, row.name)),
                    attributes: row.attributes,
                    bytes: (row.error == sys::PEF_OK).then(|| raw::part_of(fork, row.bytes)),
                });
            }
        }
    }

    fn read_members(&mut self) {
        let table = match self.resource(sys::PEF_FRAGMENT_TABLE_TYPE, 0) {
            Some(table) => table,
            None => return,
        };
        let fork = self.data_fork.unwrap_or(&[]);
        let rows = match all_rows(|from, most| raw::members(table, fork, from, most)) {
            Ok(rows) => rows,
            Err(number) => return self.note(number, sys::PEF_NO_OFFSET, MacPart::FragmentTable),
        };
        for (number, row) in rows.iter().enumerate() {
            self.note(row.name_error, row.name_error_offset, MacPart::FragmentTable);
            self.note(row.error, row.error_offset, MacPart::FragmentTable);
            if row.name_error != sys::PEF_NOT_THERE {
                let name = (row.name_error == sys::PEF_OK).then(|| raw::part_of(table, row.name));
                let member = self.member(number, name, row);
                self.members.push(member);
            }
        }
    }

    fn member(&mut self, number: usize, name: Option<&'a [u8]>, row: &sys::pef_member) -> Member<'a> {
        let mut it = Member {
            number,
            name,
            architecture: row.architecture.to_be_bytes(),
            update_level: row.update_level,
            current_version: row.current_version,
            old_def_version: row.old_def_version,
            stack_size: row.stack_size,
            directory_or_flags: row.directory_or_flags,
            usage: row.usage.into(),
            locator: row.locator.into(),
            offset: row.offset,
            length: row.length,
            space_id: row.space_id,
            fork_instance: row.fork_instance,
            extension_count: row.extension_count,
            size: row.size,
            container: None,
        };
        it.container = match it.locator {
            Locator::DataFork => self.container_in_fork(row),
            Locator::Resource => self.resource(row.offset, it.resource_id()),
            _ => None,
        };
        it
    }

    fn container_in_fork(&mut self, row: &sys::pef_member) -> Option<&'a [u8]> {
        match self.data_fork {
            Some(fork) => {
                self.note(row.container_error, row.container_error_offset, MacPart::FragmentTable);
                (row.container_error == sys::PEF_OK).then(|| raw::part_of(fork, row.container))
            }
            None => {
                // the field of the offset
                self.note(sys::PEF_FRAGMENT_OUTSIDE, row.place + 24, MacPart::FragmentTable);
                None
            }
        }
    }

    /// The bytes of a resource that can be read.
    fn resource(&self, kind: u32, id: i16) -> Option<&'a [u8]> {
        let fork = self.resource_fork?;
        let row = raw::find_resource(fork, kind, id).ok()?;
        (row.error == sys::PEF_OK).then(|| raw::part_of(fork, row.bytes))
    }
}

impl fmt::Debug for MacFile<'_> {
    fn fmt(&self, out: &mut fmt::Formatter<'_>) -> fmt::Result {
        out.debug_struct("MacFile")
            .field("kind", &self.kind)
            .field("name", &self.name.map(Text))
            .field("data_fork", &self.data_fork.map(Count))
            .field("resource_fork", &self.resource_fork.map(Count))
            .field("resources", &self.resources)
            .field("members", &self.members)
            .field("errors", &self.errors)
            .finish_non_exhaustive()
    }
}

/// Whether a part is there: also if it passes the end of the file.
fn is_there(error: u32) -> bool {
    matches!(error, sys::PEF_OK | sys::PEF_DATA_FORK_CUT | sys::PEF_RESOURCE_FORK_CUT)
}

/// The places in some bytes where a container begins.
fn containers_in(bytes: &[u8]) -> Vec<usize> {
    all_rows(|from, most| raw::find_containers(bytes, from, most)).unwrap_or_default()
}

/// Where the resource fork of a file usually is, if it is a file of its own: the places of `pef inspect`, in its order.
///
/// ```
/// use std::path::Path;
///
/// let places = pef::resource_files(Path::new("disk/Calculator"));
/// assert_eq!(places[0], Path::new("disk/._Calculator"));
/// ```
#[cfg(feature = "std")]
pub fn resource_files(path: &std::path::Path) -> Vec<std::path::PathBuf> {
    let name = path.file_name().unwrap_or_default();
    let with = |before: &str, after: &str| {
        let mut it = std::ffi::OsString::from(before);
        it.push(name);
        it.push(after);
        path.with_file_name(it)
    };
    let inside = |folder: &str, before: &str| {
        let mut it = std::ffi::OsString::from(before);
        it.push(name);
        path.with_file_name(folder).join(it)
    };
    [
        with("._", ""),
        inside("__MACOSX", "._"),
        inside(".AppleDouble", ""),
        inside(".rsrc", ""),
        with("", ".rsrc"),
        with("%", ""),
        inside("resource.frk", ""),
        inside(".resource", ""),
    ]
    .into()
}
