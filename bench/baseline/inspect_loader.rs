//! The loader section of a container: its tests, and the lines of its rows.

use crate::inspect_lines::{push_ended, push_label, push_number, Lines};
use crate::inspect_programs::print_relocations;
use crate::text::push_byte;
use crate::{end_of, is_padding, Limits, Part};

const HEADER: usize = 56;
const MOST_POWER: u32 = 30;
const NO_LIBRARY: u32 = u32::MAX;
const MOST_SHARED: usize = 1 << 24;

pub struct Loader<'a> {
    pub bytes: &'a [u8],
    /// Where it begins in the file.
    pub at: u32,
    pub header: [u32; 14],
    /// The sizes of the memory and the image of each instantiated section.
    pub sections: &'a [(u32, u32)],
    libraries: &'a [[u8; 24]],
    pub imports: &'a [[u8; 4]],
    pub relocations: &'a [[u8; 12]],
    slots: &'a [[u8; 4]],
    keys: &'a [[u8; 4]],
    exports: &'a [[u8; 10]],
    strings: &'a [u8],
    /// Where the last name ends, counted from the first.
    names_end: usize,
}

/// So many rows from a place on.
fn rows<const N: usize>(bytes: &[u8], at: usize, count: u32) -> Option<&[[u8; N]]> {
    Some(bytes.get(at..at + N * count as usize)?.as_chunks().0)
}

pub fn words<const N: usize>(row: &[u8]) -> [u32; N] {
    std::array::from_fn(|place| u32::from_be_bytes(row.as_chunks().0[place]))
}

impl<'a> Loader<'a> {
    pub fn read(bytes: &'a [u8], at: u32, sections: &'a [(u32, u32)]) -> Option<Self> {
        let header: [u32; 14] = words(bytes.get(..HEADER)?);
        let [.., libraries, imports, relocations, _, strings, hash, power, exports] = header;
        let imports_at = HEADER + 24 * libraries as usize;
        let relocations_at = imports_at + 4 * imports as usize;
        // Without exports their table may be anywhere, and without names the strings.
        let (slots_at, slots) = match exports {
            0 => (0, 0),
            _ if power > MOST_POWER => return None,
            _ => (hash as usize, 1 << power),
        };
        let keys_at = slots_at + 4 * slots as usize;
        let is_nameless = [libraries, imports, exports] == [0; 3];
        let strings = bytes.get(strings as usize..);
        Some(Loader {
            bytes,
            at,
            header,
            sections,
            libraries: rows(bytes, HEADER, libraries)?,
            imports: rows(bytes, imports_at, imports)?,
            relocations: rows(bytes, relocations_at, relocations)?,
            slots: rows(bytes, slots_at, slots)?,
            keys: rows(bytes, keys_at, exports)?,
            exports: rows(bytes, keys_at + 4 * exports as usize, exports)?,
            strings: strings.or(is_nameless.then_some(&[]))?,
            names_end: 0,
        })
    }

    fn imports_at(&self) -> u32 {
        self.at + (HEADER + 24 * self.libraries.len()) as u32
    }

    pub fn relocations_at(&self) -> u32 {
        self.imports_at() + 4 * self.imports.len() as u32
    }

    pub fn print(&mut self, lines: &mut Lines, limits: &mut Limits) -> Option<()> {
        self.print_header(lines)?;
        self.print_libraries(lines)?;
        self.print_imports(lines)?;
        self.print_entries(lines)?;
        let mut parts = print_relocations(self, lines, limits)?;
        self.print_exports(lines)?;
        parts.extend(self.parts());
        let end = end_of(self.bytes, parts, false)?;
        is_padding(&self.bytes[end..]).then_some(())
    }

    fn print_header(&self, lines: &mut Lines) -> Option<()> {
        let [.., libraries, imports, relocations, programs, strings, hash, power, exports] =
            self.header;
        lines.begin(self.at, b" loader");
        lines.numbers(&[(b" libraries ", libraries), (b" imports ", imports)]);
        lines.numbers(&[(b" relocs ", relocations)]);
        lines.push(b" programs ");
        lines.begin(programs, b" strings ");
        lines.begin(strings, b" hash ");
        lines.hex(hash);
        lines.numbers(&[(b" power ", power), (b" exports ", exports)]);
        lines.end()
    }

    fn push_name(&mut self, text: &mut Vec<u8>, offset: u32) -> Option<()> {
        let offset = offset as usize;
        let length = push_ended(text, self.strings.get(offset..)?)?;
        self.names_end = self.names_end.max(offset + length + 1);
        Some(())
    }

    fn print_libraries(&mut self, lines: &mut Lines) -> Option<()> {
        for (row, number) in self.libraries.iter().zip(0..) {
            let [name, oldimp, current, count, first, options] = words(row);
            let [options, reserved @ ..] = options.to_be_bytes();
            if oldimp > current || reserved != [0; 3] {
                return None;
            }
            lines.begin(self.at + HEADER as u32 + 24 * number, b" library ");
            self.push_name(&mut lines.text, name)?;
            lines.numbers(&[(b" current ", current), (b" oldimp ", oldimp)]);
            lines.push(b" options ");
            push_byte(&mut lines.text, options);
            lines.versions(&[current, oldimp]);
            lines.numbers(&[(b" imports ", count), (b" from ", first)]);
            lines.end()?;
        }
        Some(())
    }

    /// The library of each import: the first one that has it is written last. Libraries that share too many aren't printed.
    fn owners(&self) -> Option<Vec<u32>> {
        let mut owners = vec![NO_LIBRARY; self.imports.len()];
        let mut left = owners.len() + MOST_SHARED;
        for (library, row) in self.libraries.iter().enumerate().rev() {
            let [_, _, _, count, first, _] = words(row).map(|word: u32| word as usize);
            left = left.checked_sub(count)?;
            owners.get_mut(first..first + count)?.fill(library as u32);
        }
        (!owners.contains(&NO_LIBRARY)).then_some(owners)
    }

    fn print_imports(&mut self, lines: &mut Lines) -> Option<()> {
        let (mut of_library, mut last) = (Vec::new(), NO_LIBRARY);
        for ((row, owner), number) in self.imports.iter().zip(self.owners()?).zip(0..) {
            // Most imports have the library of the one before.
            if owner != last {
                last = owner;
                of_library.clear();
                of_library.extend_from_slice(b" of ");
                let [name] = words(&self.libraries[owner as usize]);
                self.push_name(&mut of_library, name)?;
                of_library.extend_from_slice(b" class ");
            }
            let word = u32::from_be_bytes(*row);
            lines.begin(self.imports_at() + 4 * number, b" import ");
            push_number(&mut lines.text, number);
            lines.push(b" ");
            self.push_name(&mut lines.text, word & 0xFF_FFFF)?;
            lines.push(&of_library);
            push_number(&mut lines.text, word >> 24 & 15);
            if word >> 31 == 1 {
                lines.push(b" weak");
            } else {
                lines.push(b" strong");
            }
            lines.end()?;
        }
        Some(())
    }

    fn print_entries(&self, lines: &mut Lines) -> Option<()> {
        let words: [&[u8]; 3] = [b" main ", b" init ", b" term "];
        let entries = words.into_iter().zip(self.header.as_chunks().0);
        for ((words, [section, offset]), place) in entries.zip(0..) {
            if *section == u32::MAX {
                continue;
            }
            let (memory, _) = self.sections.get(*section as usize)?;
            if offset > memory {
                return None;
            }
            lines.begin(self.at + 8 * place, b"");
            lines.numbers(&[(words, *section)]);
            lines.push(b" ");
            lines.hex(*offset);
            lines.end()?;
        }
        Some(())
    }

    /// An export's key is the hash word of its name, and the slot of this word counts it.
    fn print_exports(&mut self, lines: &mut Lines) -> Option<()> {
        self.test_slots()?;
        let tables = self.header[11] as usize + 4 * (self.slots.len() + self.keys.len());
        let at = (self.at as usize + tables) as u32;
        let mut left = self.strings.len();
        for ((key, row), number) in self.keys.iter().zip(self.exports).zip(0..) {
            let (key, [name, value]) = (u32::from_be_bytes(*key), words(row));
            let section = i16::from_be_bytes([row[8], row[9]]);
            let (offset, length) = ((name & 0xFF_FFFF) as usize, (key >> 16) as usize);
            let label = self.strings.get(offset..)?;
            self.names_end = self.names_end.max(offset + length);
            left = left.checked_sub(length)?;
            let is_keyed = key == hash_word(label.get(..length)?) && self.is_counted(key, number);
            if !is_keyed || !self.is_inside(section, value) {
                return None;
            }
            lines.begin(at + 10 * number, b" export ");
            push_label(&mut lines.text, label, length)?;
            lines.push(b" class ");
            push_number(&mut lines.text, name >> 24 & 15);
            if section < 0 {
                lines.push(b" section -");
            } else {
                lines.push(b" section ");
            }
            push_number(&mut lines.text, section.unsigned_abs().into());
            lines.push(b" value ");
            lines.hex(value);
            lines.end()?;
        }
        Some(())
    }

    /// Slots that count keys do so in turn.
    fn test_slots(&self) -> Option<()> {
        let mut end = 0;
        for (count, first) in self.slots.iter().map(split_slot).filter(|slot| slot.0 > 0) {
            if first < end {
                return None;
            }
            end = first + count;
        }
        (end as usize <= self.keys.len()).then_some(())
    }

    fn is_counted(&self, key: u32, number: u32) -> bool {
        let slot = (key ^ key >> self.header[12]) as usize & (self.slots.len() - 1);
        let (count, first) = split_slot(&self.slots[slot]);
        (first..first + count).contains(&number)
    }

    /// Whether an export has a value, and it isn't past the end of a section.
    fn is_inside(&self, section: i16, value: u32) -> bool {
        match usize::try_from(section) {
            Ok(section) => {
                let memory = self.sections.get(section).map(|(memory, _)| *memory);
                memory.is_some_and(|memory| value <= memory)
            }
            Err(_) => section == -2 || section == -3 && (value as usize) < self.imports.len(),
        }
    }

    /// The header and the tables, the names, and the export table.
    fn parts(&self) -> [Part; 3] {
        let [.., strings, hash, power, exports] = self.header.map(|word| word as usize);
        let tables = (self.relocations_at() - self.at) as usize + 12 * self.relocations.len();
        // A part that ends where it begins is none.
        let slots = if power > MOST_POWER as usize {
            0
        } else {
            4 << power
        };
        let table = slots + 14 * exports * usize::from(slots > 0);
        let table = (hash, (hash + table).min(self.bytes.len()));
        [(0, tables), (strings, strings + self.names_end), table]
    }
}

/// How many keys a slot counts, and the first of them.
fn split_slot(slot: &[u8; 4]) -> (u32, u32) {
    let word = u32::from_be_bytes(*slot);
    (word >> 18, word & 0x3_FFFF)
}

fn hash_word(name: &[u8]) -> u32 {
    let hash = name.iter().fold(0i32, |hash, byte| {
        (hash << 1).wrapping_sub(hash >> 16) ^ i32::from(*byte)
    });
    (name.len() as u32) << 16 | (hash ^ hash >> 16) as u32 & 0xFFFF
}
