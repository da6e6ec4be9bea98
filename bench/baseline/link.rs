//! `pef link SCRIPT OUT` in plain Rust: the same lines, and a container of the same size.

mod export_table;
mod labels;
mod lines;
mod names;
mod plan;
mod script;

use script::{Script, Section};
use std::fs::{self, File};
use std::io::{self, BufWriter, Write};

fn main() -> io::Result<()> {
    let paths: Vec<String> = std::env::args().skip(1).collect();
    let text = fs::read(&paths[0])?;
    let script = script::read(&text);
    let programs: Vec<Vec<u16>> = script
        .sections
        .iter()
        .map(|section| plan::plan(&section.fixups, false).program)
        .collect();
    let length = write(&script, &programs, &paths[1])?;
    let mut answer = format!("linked {length} bytes\n");
    for (place, program) in programs.iter().enumerate() {
        answer += &format!("section {place} length {}\n", program.len());
    }
    io::stdout().write_all(answer.as_bytes())
}

fn round_up(length: usize, unit: usize) -> usize {
    length.next_multiple_of(unit)
}

/// Numbers of the container, the highest byte first.
#[derive(Default)]
struct Bytes(Vec<u8>);

impl Bytes {
    fn word(&mut self, value: u32) {
        self.0.extend(value.to_be_bytes());
    }

    fn words(&mut self, values: impl IntoIterator<Item = u32>) {
        values.into_iter().for_each(|value| self.word(value));
    }

    fn half(&mut self, value: u16) {
        self.0.extend(value.to_be_bytes());
    }
}

fn write(script: &Script, programs: &[Vec<u16>], path: &str) -> io::Result<usize> {
    let packed: Vec<Option<Vec<u8>>> = script
        .sections
        .iter()
        .map(|section| (section.kind == 2).then(|| pack(&section.image)))
        .collect();
    let raw = |place: usize| {
        packed[place]
            .as_deref()
            .unwrap_or(&script.sections[place].image)
    };
    let loader = loader_section(script, programs);
    let count = script.sections.len();
    let mut header = container_header(script);
    let mut end = round_up(40 + 28 * (count + 1), 16);
    for (place, section) in script.sections.iter().enumerate() {
        section_header(&mut header, section, raw(place).len(), end);
        end = round_up(end + raw(place).len(), 16);
    }
    header.words([u32::MAX, 0, 0, 0, loader.len() as u32, end as u32]);
    header.0.extend([4, 4, 4, 0]);
    let mut file = BufWriter::new(File::create(path)?);
    let parts = (0..count).map(raw);
    for part in [header.0.as_slice()].into_iter().chain(parts) {
        file.write_all(part)?;
        file.write_all(&[0; 16][..round_up(part.len(), 16) - part.len()])?;
    }
    file.write_all(&loader)?;
    file.flush()?;
    Ok(end + loader.len())
}

fn container_header(script: &Script) -> Bytes {
    let mut header = Bytes::default();
    header.0.extend(b"Joy!peffpwpc");
    let [current, olddef, oldimp] = script.versions;
    header.words([1, 0, olddef, oldimp, current]);
    header.half(script.sections.len() as u16 + 1);
    header.half(script.sections.len() as u16);
    header.word(0);
    header
}

fn section_header(header: &mut Bytes, section: &Section, packed: usize, place: usize) {
    header.words([
        u32::MAX,
        0,
        section.total,
        section.image.len() as u32,
        packed as u32,
        place as u32,
    ]);
    header
        .0
        .extend([section.kind, section.share, section.align, 0]);
}

/// Runs of three zeros and more as a count, and what is between as it is.
fn pack(image: &[u8]) -> Vec<u8> {
    let mut packed = Vec::new();
    let (mut start, mut place) = (0, 0);
    while place < image.len() {
        if image[place] != 0 {
            place += 1;
            continue;
        }
        let zeros = image[place..].iter().take_while(|byte| **byte == 0).count();
        if zeros >= 3 {
            push_block(&mut packed, &image[start..place]);
            push_count(&mut packed, 0x00, zeros);
            start = place + zeros;
        }
        place += zeros;
    }
    push_block(&mut packed, &image[start..]);
    packed
}

fn push_block(packed: &mut Vec<u8>, block: &[u8]) {
    if !block.is_empty() {
        push_count(packed, 0x20, block.len());
        packed.extend(block);
    }
}

fn push_count(packed: &mut Vec<u8>, opcode: u8, count: usize) {
    if count < 32 {
        packed.push(opcode | count as u8);
        return;
    }
    packed.push(opcode);
    for shift in (1..5)
        .rev()
        .map(|place| 7 * place)
        .filter(|shift| count >> shift > 0)
    {
        packed.push(0x80 | (count >> shift) as u8);
    }
    packed.push(count as u8 & 0x7F);
}

fn loader_section(script: &Script, programs: &[Vec<u16>]) -> Vec<u8> {
    let exports = &script.exports;
    let table = export_table::build(exports.iter().map(|export| export.name));
    let headers = programs
        .iter()
        .filter(|program| !program.is_empty())
        .count();
    let halfwords: usize = programs.iter().map(Vec::len).sum();
    let instructions = 56 + 24 * script.libraries.len() + 4 * script.imports.len() + 12 * headers;
    let strings = instructions + 2 * halfwords;
    let names = script.libraries.iter().map(|library| library.name);
    let names = names.chain(script.imports.iter().map(|import| import.name));
    let zero_ended: usize = names.clone().map(|name| name.len() + 1).sum();
    let exported: usize = exports.iter().map(|export| export.name.len()).sum();
    let slots = round_up(strings + zero_ended + exported, 4);

    let mut bytes = Bytes(Vec::with_capacity(
        slots + 4 * table.slots.len() + 14 * exports.len(),
    ));
    for entry in script.entries {
        bytes.words(entry.map_or([u32::MAX, 0], |(section, offset)| [section, offset]));
    }
    bytes.words([script.libraries.len(), script.imports.len(), headers].map(|count| count as u32));
    bytes.words([instructions, strings, slots].map(|place| place as u32));
    bytes.words([table.power, exports.len() as u32]);
    imported(&mut bytes, script);
    relocations(&mut bytes, programs);
    for name in names {
        bytes.0.extend(name);
        bytes.0.push(0);
    }
    for place in &table.order {
        bytes.0.extend(exports[*place as usize].name);
    }
    bytes.0.resize(slots, 0);
    bytes.words(table.slots);
    bytes.words(table.keys);
    let mut name = zero_ended as u32;
    for place in table.order {
        let export = &exports[place as usize];
        bytes.words([u32::from(export.class) << 24 | name, export.value]);
        bytes.half(export.section as u16);
        name += export.name.len() as u32;
    }
    bytes.0
}

/// Libraries and imports. Their names follow one another in the strings.
fn imported(bytes: &mut Bytes, script: &Script) {
    let (mut name, mut first) = (0, 0);
    for library in &script.libraries {
        bytes.words([
            name,
            library.oldimp,
            library.current,
            library.imports,
            first,
        ]);
        bytes.word(u32::from(library.options) << 24);
        name += library.name.len() as u32 + 1;
        first += library.imports;
    }
    for import in &script.imports {
        bytes.word(u32::from(import.class) << 24 | name);
        name += import.name.len() as u32 + 1;
    }
}

fn relocations(bytes: &mut Bytes, programs: &[Vec<u16>]) {
    let mut first = 0;
    for (section, program) in programs
        .iter()
        .enumerate()
        .filter(|(_, program)| !program.is_empty())
    {
        bytes.half(section as u16);
        bytes.half(0);
        bytes.words([program.len() as u32, first]);
        first += 2 * program.len() as u32;
    }
    bytes.0.extend(
        programs
            .iter()
            .flatten()
            .flat_map(|halfword| halfword.to_be_bytes()),
    );
}
