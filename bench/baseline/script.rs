//! Reads a link script.
#![allow(dead_code)] // each program uses a part

use crate::lines::{append_hex, number, refuse, Lines, Words};
use crate::names::NameMap;

#[derive(Clone, Copy, PartialEq, Eq)]
pub enum Base {
    Section(u32),
    Import(u32),
}

#[derive(Clone, Copy)]
pub struct Fixup {
    pub offset: u32,
    pub base: Base,
}

pub struct Library<'a> {
    pub name: &'a [u8],
    pub current: u32,
    pub oldimp: u32,
    pub options: u8,
    pub imports: u32,
}

pub struct Import<'a> {
    pub name: &'a [u8],
    /// The class byte of the container: bit 80 (hex) marks a weak import.
    pub class: u8,
}

pub struct Section {
    pub kind: u8,
    pub share: u8,
    pub align: u8,
    pub total: u32,
    pub image: Vec<u8>,
    pub fixups: Vec<Fixup>,
}

pub struct Export<'a> {
    pub name: &'a [u8],
    pub class: u8,
    pub section: i16,
    pub value: u32,
}

#[derive(Default)]
pub struct Script<'a> {
    /// Current version, oldest definition, oldest implementation.
    pub versions: [u32; 3],
    pub libraries: Vec<Library<'a>>,
    pub imports: Vec<Import<'a>>,
    pub sections: Vec<Section>,
    pub exports: Vec<Export<'a>>,
    /// Of `main`, `init` and `term`.
    pub entries: [Option<(u32, u32)>; 3],
}

/// A script under way, with the names that were met.
#[derive(Default)]
struct Reader<'a> {
    script: Script<'a>,
    sections: Vec<&'a [u8]>,
    libraries: NameMap<'a>,
    imports: NameMap<'a>,
    exports: NameMap<'a>,
}

pub fn read(text: &[u8]) -> Script<'_> {
    let mut reader = Reader::default();
    let mut lines = Lines::new(text);
    while let Some(line) = lines.next() {
        if !line.is_empty() && line[0] != b'#' && reader.line(line).is_none() {
            refuse(lines.number);
        }
    }
    for section in &mut reader.script.sections {
        let fixups = &mut section.fixups;
        if !fixups.is_sorted_by_key(|fixup| fixup.offset) {
            fixups.sort_unstable_by_key(|fixup| fixup.offset);
        }
        if fixups
            .windows(2)
            .any(|two| two[1].offset - two[0].offset < 4)
        {
            refuse(0);
        }
    }
    reader.script
}

impl<'a> Reader<'a> {
    fn line(&mut self, line: &'a [u8]) -> Option<()> {
        let mut words = Words::new(line);
        match words.next()? {
            b"fix" => self.fix(&mut words)?,
            b"bytes" => self.bytes(&mut words)?,
            b"import" => self.import(&mut words)?,
            b"tvector" => self.tvector(&mut words)?,
            b"export" => self.export(&mut words)?,
            b"reexport" => self.reexport(&mut words)?,
            b"absolute" => self.absolute(&mut words)?,
            b"library" => self.library(&mut words)?,
            b"section" => self.section(&mut words)?,
            b"versions" => {
                for version in &mut self.script.versions {
                    *version = number(words.next()?)?;
                }
            }
            b"main" => self.script.entries[0] = Some(self.place(&mut words)?),
            b"init" => self.script.entries[1] = Some(self.place(&mut words)?),
            b"term" => self.script.entries[2] = Some(self.place(&mut words)?),
            _ => return None,
        }
        words.next().is_none().then_some(())
    }

    /// The number of a section. There are few, so they are gone through.
    fn section_number(&self, name: &[u8]) -> Option<u32> {
        self.sections
            .iter()
            .position(|section| *section == name)
            .map(|place| place as u32)
    }

    fn fix(&mut self, words: &mut Words<'a>) -> Option<()> {
        let section = self.section_number(words.next()?)?;
        let offset = number(words.next()?)?;
        let base = match words.next()? {
            b"section" => Base::Section(self.section_number(words.next()?)?),
            b"import" => Base::Import(*self.imports.get(words.next()?)?),
            _ => return None,
        };
        self.add_fixup(section, offset, base)
    }

    fn tvector(&mut self, words: &mut Words<'a>) -> Option<()> {
        let section = self.section_number(words.next()?)?;
        let offset = number(words.next()?)?;
        let code = self.section_number(words.next()?)?;
        let data = self.section_number(words.next()?)?;
        self.add_fixup(section, offset, Base::Section(code))?;
        self.add_fixup(section, offset + 4, Base::Section(data))
    }

    fn add_fixup(&mut self, section: u32, offset: u32, base: Base) -> Option<()> {
        let section = &mut self.script.sections[section as usize];
        section.fixups.push(Fixup { offset, base });
        (offset.checked_add(4)? <= section.total).then_some(())
    }

    fn bytes(&mut self, words: &mut Words<'a>) -> Option<()> {
        let section = self.section_number(words.next()?)?;
        let section = &mut self.script.sections[section as usize];
        let holds = append_hex(&mut section.image, words.next()?);
        (holds && section.image.len() <= section.total as usize).then_some(())
    }

    fn library(&mut self, words: &mut Words<'a>) -> Option<()> {
        let name = words.next()?;
        let (current, oldimp) = (number(words.next()?)?, number(words.next()?)?);
        let options = match words.next()? {
            b"-" => 0,
            b"weak" => 0x40,
            b"before" => 0x80,
            b"weak,before" => 0xC0,
            _ => return None,
        };
        let place = self.script.libraries.len() as u32;
        self.script.libraries.push(Library {
            name,
            current,
            oldimp,
            options,
            imports: 0,
        });
        is_new(&mut self.libraries, name, place)
    }

    fn import(&mut self, words: &mut Words<'a>) -> Option<()> {
        let name = words.next()?;
        let class = class(words.next()?)?;
        let weak = match words.next()? {
            b"strong" => 0,
            b"weak" => 0x80,
            _ => return None,
        };
        self.script.libraries.last_mut()?.imports += 1;
        let place = self.script.imports.len() as u32;
        self.script.imports.push(Import {
            name,
            class: class | weak,
        });
        is_new(&mut self.imports, name, place)
    }

    fn section(&mut self, words: &mut Words<'a>) -> Option<()> {
        let name = words.next()?;
        let kind = match words.next()? {
            b"code" => 0,
            b"data" => 1,
            b"pattern" => 2,
            b"const" => 3,
            b"exec" => 6,
            _ => return None,
        };
        let share = match words.next()? {
            b"process" => 1,
            b"global" => 4,
            b"protected" => 5,
            _ => return None,
        };
        let (align, total) = (number(words.next()?)? as u8, number(words.next()?)?);
        let is_new = self.section_number(name).is_none();
        self.sections.push(name);
        self.script.sections.push(Section {
            kind,
            share,
            align,
            total,
            image: Vec::new(),
            fixups: Vec::new(),
        });
        is_new.then_some(())
    }

    fn export(&mut self, words: &mut Words<'a>) -> Option<()> {
        let name = words.next()?;
        let class = class(words.next()?)?;
        let (section, value) = self.place(words)?;
        self.add_export(Export {
            name,
            class,
            section: section as i16,
            value,
        })
    }

    fn reexport(&mut self, words: &mut Words<'a>) -> Option<()> {
        let name = words.next()?;
        let class = class(words.next()?)?;
        let value = *self.imports.get(words.next()?)?;
        self.add_export(Export {
            name,
            class,
            section: -3,
            value,
        })
    }

    fn absolute(&mut self, words: &mut Words<'a>) -> Option<()> {
        let name = words.next()?;
        let class = class(words.next()?)?;
        let value = number(words.next()?)?;
        self.add_export(Export {
            name,
            class,
            section: -2,
            value,
        })
    }

    fn add_export(&mut self, export: Export<'a>) -> Option<()> {
        let place = self.script.exports.len() as u32;
        let name = export.name;
        self.script.exports.push(export);
        is_new(&mut self.exports, name, place)
    }

    /// A section and an offset in it.
    fn place(&self, words: &mut Words<'a>) -> Option<(u32, u32)> {
        let section = self.section_number(words.next()?)?;
        let offset = number(words.next()?)?;
        (offset <= self.script.sections[section as usize].total).then_some((section, offset))
    }
}

/// Puts a name in, unless it is there.
fn is_new<'a>(names: &mut NameMap<'a>, name: &'a [u8], place: u32) -> Option<()> {
    (name.len() <= 255 && names.insert(name, place).is_none()).then_some(())
}

fn class(word: &[u8]) -> Option<u8> {
    match word {
        b"code" => Some(0),
        b"data" => Some(1),
        b"tvector" => Some(2),
        b"toc" => Some(3),
        b"glue" => Some(4),
        _ => None,
    }
}
