//! `pef inspect FILE` in plain Rust: the same tests, and the same lines where there is no error, and no other note than for an
//! input of the benchmark. Else it ends with status 1.

mod container;
mod inspect_lines;
mod inspect_loader;
mod inspect_packed;
mod inspect_programs;
mod instructions;
mod text;

use container::{half_at, word_at, Container, Section};
use inspect_lines::{push_date, Lines, LONGEST_NAME};
use inspect_loader::Loader;
use inspect_packed::spells;
use text::push_name;

const TAGS: &[u8] = b"Joy!peff";
const HEADER: usize = 40;
const SECTION: usize = 28;
const PATTERN: u8 = 2;
const LOADER: u8 = 4;
const LAST_KIND: u8 = 8;

/// Where a part begins and ends.
pub type Part = (usize, usize);

fn main() {
    let path = std::env::args().nth(1).unwrap_or_default();
    let reported = std::fs::read(&path).is_ok_and(|bytes| report(&path, &bytes).is_some());
    if !reported {
        eprintln!("something is wrong that this baseline doesn't print");
        std::process::exit(1)
    }
}

fn report(path: &str, bytes: &[u8]) -> Option<()> {
    let size = u32::try_from(bytes.len()).ok()?;
    if is_wrapped(bytes) || has_other_format(bytes) || has_companion(path) {
        return None;
    }
    let places = containers(bytes);
    let mut lines = Lines::new();
    lines.push(b"file ");
    push_name(&mut lines.text, path.as_bytes());
    lines.numbers(&[(b" size ", size)]);
    match places.first() {
        Some(0) => lines.push(b" format container"),
        _ => lines.push(b" format other"),
    }
    lines.end()?;
    let mut limits = Limits::new(size.into());
    for place in &places {
        print_container(&mut lines, &mut limits, *place as u32, &bytes[*place..])?;
    }
    let (count, notes) = (places.len() as u32, lines.notes);
    lines.push(b"total");
    lines.numbers(&[
        (b" containers ", count),
        (b" errors ", 0),
        (b" notes ", notes),
    ]);
    lines.end()?;
    lines.send()
}

/// What all containers of a file may take together.
pub struct Limits {
    budget: u64,
    packed_bytes: u64,
    program_bytes: u64,
    steps: u64,
    words: u64,
}

impl Limits {
    fn new(size: u64) -> Self {
        Limits {
            budget: (1 << 26) + size,
            packed_bytes: (1 << 28) + size,
            program_bytes: (1 << 26) + size,
            steps: (1 << 26) + size,
            words: (1 << 20) + size / 64,
        }
    }
}

pub fn take(limit: &mut u64, cost: u64) -> Option<()> {
    *limit = limit.checked_sub(cost)?;
    Some(())
}

// --- the file ---

/// Where containers begin: their tags, with the rest of a header. Most bytes are passed 64 at once.
fn containers(bytes: &[u8]) -> Vec<usize> {
    let count = (bytes.len() + 1).saturating_sub(HEADER);
    let (firsts, seconds) = (&bytes[..count], &bytes[bytes.len().min(1)..]);
    let (firsts, seconds) = (firsts.as_chunks::<64>().0, seconds.as_chunks::<64>().0);
    let begins = |place: &usize| bytes[*place..].starts_with(TAGS);
    let mut found = Vec::new();
    for ((firsts, seconds), place) in firsts.iter().zip(seconds).zip((0..).step_by(64)) {
        let pairs = firsts.iter().zip(seconds);
        let may_begin = pairs.fold(0, |found, (first, second)| {
            found | u8::from(*first == TAGS[0]) & u8::from(*second == TAGS[1])
        });
        if may_begin != 0 {
            found.extend((place..place + 64).filter(begins));
        }
    }
    found.extend((count / 64 * 64..count).filter(begins));
    found
}

/// Whether a file may have forks: it begins as AppleSingle, AppleDouble or MacBinary, or has the form of a resource fork.
fn is_wrapped(bytes: &[u8]) -> bool {
    let is_apple = matches!(word_at(bytes, 0), Some(0x0005_1600 | 0x0005_1607));
    is_apple || has_binary_header(bytes).is_some() || has_resource_map(bytes) == Some(true)
}

fn has_binary_header(bytes: &[u8]) -> Option<()> {
    let header = bytes.get(..128)?;
    let is_zero = [0, 74, 82].iter().all(|place| header[*place] == 0);
    let is_named = (1..=63).contains(&header[1]);
    let lengths = [word_at(header, 83)?, word_at(header, 87)?];
    (is_zero && is_named && lengths.iter().all(|length| length >> 31 == 0)).then_some(())
}

/// Data and map are apart and inside, or the map follows the data.
fn has_resource_map(bytes: &[u8]) -> Option<bool> {
    let field = |at| word_at(bytes, at).map(u64::from);
    let (data, map) = (field(0)?, field(4)?);
    let (data_end, map_end) = (data + field(8)?, map + field(12)?);
    let is_apart = data_end <= map || map_end <= data;
    let is_inside = data_end.max(map_end) <= bytes.len() as u64;
    Some(data.min(map) >= 16 && is_apart && (is_inside || data_end == map))
}

/// Whether a file seems to be an archive or an image of a disk.
fn has_other_format(bytes: &[u8]) -> bool {
    let has = |at: usize, text: &[u8]| bytes.get(at..).is_some_and(|rest| rest.starts_with(text));
    let number = |at| word_at(bytes, at).map_or(0, u64::from);
    let size = bytes.len() as u64;
    let name_length = bytes.get(1060).copied().unwrap_or(0);
    has(0, b"SIT!")
        || has(0, b"StuffIt (c)")
        || has(0, b"(This file must be converted")
        || has(0, b"PK\x03\x04")
        || has(0, b"ER") && has(512, b"PM")
        || has(1024, b"H+\0\x04")
        || has(1024, b"HX\0\x05")
        || has(1024, b"BD") && (1..=27).contains(&name_length)
        || has(32769, b"CD001")
        || has(82, b"\x01\0") && 84 + number(64) + number(68) == size
        || has(0, b"\x01\x01") && number(4) >= 8 && number(4) + 7 <= size
}

/// Whether another file may be the resource fork of this one.
fn has_companion(path: &str) -> bool {
    let (folder, name) = path.split_at(path.rfind('/').map_or(0, |slash| slash + 1));
    if name.starts_with("._") {
        return false;
    }
    let is_there = |place: String| std::fs::read(place).is_ok();
    let near = "._ __MACOSX/._ .AppleDouble/ .rsrc/ % resource.frk/ .resource/".split(' ');
    let mut near = near.map(|before| format!("{folder}{before}{name}"));
    if near.any(is_there) || is_there(format!("{path}.rsrc")) {
        return true;
    }
    let mut end = folder.len();
    while end > 0 {
        let at = folder[..end - 1].rfind('/').map_or(0, |slash| slash + 1);
        let (above, below) = folder.split_at(at);
        // Without a name there is no folder to look for.
        let is_unnamed = |none: &&str| below.starts_with(none);
        if ["/", "./", "../"].iter().any(is_unnamed) {
            return false;
        }
        if is_there(format!("{above}__MACOSX/{below}._{name}")) {
            return true;
        }
        end = at;
    }
    false
}

// --- a container ---

fn print_container(lines: &mut Lines, limits: &mut Limits, base: u32, bytes: &[u8]) -> Option<()> {
    let container = Container::read(bytes)?;
    let (sections, behind) = container.sections.split_at(container.instantiated);
    let loader = behind.iter().position(|section| section.kind == LOADER)?;
    let headers = HEADER + SECTION * container.sections.len();
    let cost = (1 << 13) + headers + behind[loader].raw.len();
    take(&mut limits.budget, cost as u64)?;
    print_header(lines, base, bytes, &container)?;
    let (mut names, mut parts) = (headers, Vec::new());
    for (section, at) in container.sections.iter().zip((HEADER..).step_by(SECTION)) {
        let from = print_section(lines, base, bytes, at, section)?;
        let is_empty = section.raw.is_empty();
        parts.push((
            from,
            if is_empty {
                0
            } else {
                from + section.raw.len()
            },
        ));
        names = names.max(test_name(bytes, headers, at, section)?);
    }
    let needs = parts.iter().map(|(_, end)| *end).max()?.max(headers);
    let mut sizes = Vec::new();
    for section in sections {
        test_memory(limits, section)?;
        sizes.push((section.total, section.unpacked));
    }
    let loader_at = base + parts[sections.len() + loader].0 as u32;
    Loader::read(behind[loader].raw, loader_at, &sizes)?.print(lines, limits)?;
    parts.push((0, names));
    end_of(bytes, parts, true).filter(|end| *end == bytes.len())?;
    lines.push(b"verdict whole");
    lines.numbers(&[(b" needs ", needs as u32), (b" has ", bytes.len() as u32)]);
    lines.push(b" sections whole imports whole exports whole relocations whole");
    lines.end()
}

fn print_header(lines: &mut Lines, base: u32, bytes: &[u8], container: &Container) -> Option<()> {
    let (olddef, oldimp) = (container.olddef, container.oldimp);
    if olddef.max(oldimp) > container.current || word_at(bytes, 36)? != 0 {
        return None;
    }
    lines.begin(base, b" container");
    lines.numbers(&[(b" current ", container.current), (b" olddef ", olddef)]);
    lines.numbers(&[(b" oldimp ", oldimp), (b" date ", container.date)]);
    lines.versions(&[container.current, olddef, oldimp]);
    lines.push(b" time ");
    push_date(&mut lines.text, container.date);
    let [sections, instantiated] = [half_at(bytes, 32)?, half_at(bytes, 34)?].map(u32::from);
    lines.numbers(&[(b" sections ", sections), (b" instantiated ", instantiated)]);
    lines.end()
}

/// Returns where the raw bytes of the section begin.
fn print_section(
    lines: &mut Lines,
    base: u32,
    bytes: &[u8],
    at: usize,
    section: &Section,
) -> Option<usize> {
    let offset = word_at(bytes, at + 20)?;
    let [kind, share, align] = [section.kind, section.share, section.align].map(u32::from);
    lines.begin(base + at as u32, b"");
    lines.numbers(&[(b" section ", ((at - HEADER) / SECTION) as u32)]);
    lines.numbers(&[(b" kind ", kind), (b" share ", share), (b" align ", align)]);
    lines.numbers(&[(b" total ", section.total)]);
    lines.numbers(&[
        (b" unpacked ", section.unpacked),
        (b" packed ", section.raw.len() as u32),
    ]);
    lines.push(b" default ");
    lines.begin(section.address, b" name ");
    match section.name {
        None => lines.push(b"-"),
        Some(b"-") => lines.push(b"%2D"),
        Some(name) => push_name(&mut lines.text, name),
    }
    lines.push(b" raw ");
    lines.hex(base.checked_add(offset)?);
    lines.end().map(|()| offset as usize)
}

/// Tests the name, the kind and the reserved field of a section, and returns where the name ends.
fn test_name(bytes: &[u8], names: usize, at: usize, section: &Section) -> Option<usize> {
    if section.kind > LAST_KIND || bytes[at + 27] != 0 {
        return None;
    }
    match word_at(bytes, at)? {
        u32::MAX => Some(names),
        offset => {
            let name = section.name.filter(|name| name.len() <= LONGEST_NAME)?;
            Some(names + offset as usize + name.len() + 1)
        }
    }
}

/// Tests how an instantiated section is shared, and what its memory begins with.
fn test_memory(limits: &mut Limits, section: &Section) -> Option<()> {
    if ![1, 4, 5].contains(&section.share) {
        return None;
    }
    if section.kind == PATTERN {
        take(&mut limits.packed_bytes, section.raw.len() as u64)?;
        spells(section.raw, section.unpacked)?;
    }
    Some(())
}

/// Where parts end, unless bytes before belong to none of them or, if parts are apart, to two.
pub fn end_of(bytes: &[u8], mut parts: Vec<Part>, are_apart: bool) -> Option<usize> {
    parts.retain(|(from, to)| from < to);
    parts.sort_unstable();
    let mut end = 0;
    for (from, to) in parts {
        if from < end && are_apart || !is_padding(bytes.get(end..from).unwrap_or(&[])) {
            return None;
        }
        end = end.max(to);
    }
    Some(end)
}

/// Whether bytes only align what follows.
pub fn is_padding(bytes: &[u8]) -> bool {
    bytes.len() < 16 && bytes.iter().all(|byte| *byte == 0)
}
