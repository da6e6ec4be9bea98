//! Reads containers and their loader sections.
#![allow(dead_code)] // each program uses a part

use std::io::BufRead;

/// A big-endian number of four bytes, or of two.
pub fn word_at(bytes: &[u8], at: usize) -> Option<u32> {
    Some(u32::from_be_bytes(*bytes.get(at..)?.first_chunk()?))
}

pub fn half_at(bytes: &[u8], at: usize) -> Option<u16> {
    Some(u16::from_be_bytes(*bytes.get(at..)?.first_chunk()?))
}

/// The bytes before the first zero byte.
fn name_at(bytes: &[u8], at: usize) -> Option<&[u8]> {
    let name = bytes.get(at..)?;
    let mut rest = name;
    let taken = rest.skip_until(0).ok()?;
    name[..taken].strip_suffix(&[0])
}

pub struct Section<'a> {
    pub name: Option<&'a [u8]>,
    pub address: u32,
    pub total: u32,
    pub unpacked: u32,
    pub raw: &'a [u8],
    pub kind: u8,
    pub share: u8,
    pub align: u8,
}

pub struct Container<'a> {
    pub date: u32,
    pub olddef: u32,
    pub oldimp: u32,
    pub current: u32,
    pub sections: Vec<Section<'a>>,
    /// How many of the sections are instantiated.
    pub instantiated: usize,
}

impl<'a> Container<'a> {
    pub fn read(bytes: &'a [u8]) -> Option<Self> {
        if !bytes.starts_with(b"Joy!peffpwpc\0\0\0\x01") {
            return None;
        }
        let field = |at| word_at(bytes, at);
        let (count, instantiated) = (
            usize::from(half_at(bytes, 32)?),
            usize::from(half_at(bytes, 34)?),
        );
        let names = 40 + 28 * count;
        let sections: Option<Vec<_>> = (0..count)
            .map(|place| section(bytes, 40 + 28 * place, names))
            .collect();
        let [date, olddef, oldimp, current] = [field(16)?, field(20)?, field(24)?, field(28)?];
        let sections =
            sections.filter(|sections| sections.get(..instantiated).is_some_and(can_be_filled))?;
        Some(Container {
            date,
            olddef,
            oldimp,
            current,
            sections,
            instantiated,
        })
    }

    pub fn loader(&self) -> Option<Loader<'a>> {
        let loader = self.sections[self.instantiated..]
            .iter()
            .find(|section| section.kind == 4)?;
        Loader::read(loader.raw, self.instantiated)
    }
}

fn section(bytes: &[u8], at: usize, names: usize) -> Option<Section<'_>> {
    let field = |place: usize| word_at(bytes, at + 4 * place);
    let name = field(0)? as i32;
    let name = usize::try_from(name)
        .ok()
        .and_then(|offset| name_at(bytes, names + offset));
    let (packed, place) = (field(4)? as usize, field(5)? as usize);
    let raw = if packed == 0 {
        &[]
    } else {
        bytes.get(place..place + packed)?
    };
    let &[kind, share, align, _] = bytes.get(at + 24..)?.first_chunk()?;
    Some(Section {
        name,
        address: field(1)?,
        total: field(2)?,
        unpacked: field(3)?,
        raw,
        kind,
        share,
        align,
    })
}

fn can_be_filled(sections: &[Section]) -> bool {
    sections.iter().all(|section| {
        let holds = section.kind == 2 || section.raw.len() >= section.unpacked as usize;
        holds
            && [0, 1, 2, 3, 6].contains(&section.kind)
            && section.unpacked <= section.total
            && section.align < 32
    })
}

pub struct Library<'a> {
    pub name: &'a [u8],
    pub oldimp: u32,
    pub current: u32,
    pub count: u32,
    pub first: u32,
    pub options: u8,
}

#[derive(Clone, Copy)]
pub struct Import<'a> {
    pub name: &'a [u8],
    pub class: u8,
    pub is_weak: bool,
}

#[derive(Clone, Copy)]
pub struct Export<'a> {
    pub name: &'a [u8],
    pub class: u8,
    pub section: i16,
    pub value: u32,
}

pub struct Loader<'a> {
    bytes: &'a [u8],
    strings: usize,
    imports_at: usize,
    keys_at: usize,
    pub libraries: Vec<Library<'a>>,
    pub import_count: usize,
    pub export_count: usize,
    /// For each relocation header its section and its halfwords.
    pub programs: Vec<(u16, Vec<u16>)>,
    /// Of main, initialization and termination.
    pub entries: [Option<(u32, u32)>; 3],
}

impl<'a> Loader<'a> {
    fn read(bytes: &'a [u8], sections: usize) -> Option<Self> {
        let field = |place: usize| word_at(bytes, 4 * place);
        let size = |place: usize| field(place).map(|value| value as usize);
        let entry = |place| {
            let section = field(place)?;
            let holds = section == u32::MAX || (section as usize) < sections;
            holds.then_some(Some((section, field(place + 1)?)).filter(|_| section != u32::MAX))
        };
        let entries = [entry(0)?, entry(2)?, entry(4)?];
        let (library_count, import_count, header_count) = (size(6)?, size(7)?, size(8)?);
        let (instructions, strings, slots) = (size(9)?, size(10)?, size(11)?);
        let (power, export_count) = (field(12)?, size(13)?);
        let imports_at = 56 + 24 * library_count;
        let headers_at = imports_at + 4 * import_count;
        bytes.get(..headers_at + 12 * header_count)?;
        let libraries: Option<Vec<_>> = (0..library_count)
            .map(|place| library(bytes, 56 + 24 * place, strings))
            .collect();
        let programs: Option<Vec<_>> = (0..header_count)
            .map(|place| program(bytes, headers_at + 12 * place, instructions))
            .collect();
        let keys_at = if export_count == 0 {
            0
        } else {
            slots + (4usize << power)
        };
        bytes.get(..keys_at + 14 * export_count)?;
        let (libraries, programs) = (libraries?, programs?);
        Some(Loader {
            bytes,
            strings,
            imports_at,
            keys_at,
            libraries,
            import_count,
            export_count,
            programs,
            entries,
        })
    }

    pub fn import(&self, place: usize) -> Option<Import<'a>> {
        let word = word_at(self.bytes, self.imports_at + 4 * place)?;
        let name = name_at(self.bytes, self.strings + (word & 0xFF_FFFF) as usize)?;
        Some(Import {
            name,
            class: (word >> 24) as u8 & 15,
            is_weak: word >> 31 == 1,
        })
    }

    pub fn export(&self, place: usize) -> Option<Export<'a>> {
        let length = usize::from(half_at(self.bytes, self.keys_at + 4 * place)?);
        let at = self.keys_at + 4 * self.export_count + 10 * place;
        let word = word_at(self.bytes, at)?;
        let name = self.strings + (word & 0xFF_FFFF) as usize;
        let name = self.bytes.get(name..name + length)?;
        let section = half_at(self.bytes, at + 8)? as i16;
        Some(Export {
            name,
            class: (word >> 24) as u8 & 15,
            section,
            value: word_at(self.bytes, at + 4)?,
        })
    }

    /// For each import the first library whose range has it.
    pub fn owners(&self) -> Option<Vec<u32>> {
        let mut owners = vec![u32::MAX; self.import_count];
        // Leads past imports that have an owner.
        let mut next: Vec<u32> = (0..=self.import_count as u32).collect();
        for (library, owner) in self.libraries.iter().zip(0..) {
            let end = library
                .first
                .checked_add(library.count)
                .filter(|end| *end as usize <= self.import_count)?;
            let mut import = first_free(&mut next, library.first);
            while import < end {
                owners[import as usize] = owner;
                next[import as usize] = import + 1;
                import = first_free(&mut next, import + 1);
            }
        }
        owners
            .iter()
            .all(|owner| *owner != u32::MAX)
            .then_some(owners)
    }
}

fn first_free(next: &mut [u32], mut import: u32) -> u32 {
    while next[import as usize] != import {
        let after = next[next[import as usize] as usize];
        next[import as usize] = after;
        import = after;
    }
    import
}

fn library(bytes: &[u8], at: usize, strings: usize) -> Option<Library<'_>> {
    let field = |place: usize| word_at(bytes, at + 4 * place);
    let name = name_at(bytes, strings + field(0)? as usize)?;
    let options = *bytes.get(at + 20)?;
    Some(Library {
        name,
        oldimp: field(1)?,
        current: field(2)?,
        count: field(3)?,
        first: field(4)?,
        options,
    })
}

fn program(bytes: &[u8], at: usize, instructions: usize) -> Option<(u16, Vec<u16>)> {
    let from = instructions + word_at(bytes, at + 8)? as usize;
    let count = word_at(bytes, at + 4)? as usize;
    let halfwords = bytes.get(from..from + 2 * count)?.as_chunks::<2>().0;
    Some((
        half_at(bytes, at)?,
        halfwords
            .iter()
            .map(|half| u16::from_be_bytes(*half))
            .collect(),
    ))
}
