//! `pef list FILE` in plain Rust: the same lines.

mod container;
mod instructions;
mod text;

use container::{Container, Export, Loader, Section};
use instructions::{Instruction, Kind};
use std::io::{self, Write};
use text::{push_byte, push_decimal, push_half, push_name, push_word};

fn main() -> io::Result<()> {
    let path = std::env::args().nth(1).unwrap_or_default();
    let bytes = std::fs::read(path)?;
    let answer = listing(&bytes).unwrap_or_else(|| {
        eprintln!("the container isn't understood");
        std::process::exit(1)
    });
    io::stdout().write_all(&answer)
}

fn listing(bytes: &[u8]) -> Option<Vec<u8>> {
    let container = Container::read(bytes)?;
    let loader = container.loader()?;
    let mut text = Vec::new();
    push_numbers(
        &mut text,
        "container",
        &[("current", container.current), ("olddef", container.olddef)],
    );
    push_numbers(
        &mut text,
        "",
        &[("oldimp", container.oldimp), ("date", container.date)],
    );
    text.push(b'\n');
    for (section, place) in container.sections.iter().zip(0..) {
        push_section(&mut text, section, place);
    }
    push_imported(&mut text, &loader)?;
    for (word, entry) in ["main ", "init ", "term "].into_iter().zip(loader.entries) {
        if let Some((section, offset)) = entry {
            text.extend(word.as_bytes());
            push_decimal(&mut text, section);
            text.push(b' ');
            push_word(&mut text, offset);
            text.push(b'\n');
        }
    }
    for (section, program) in &loader.programs {
        push_numbers(
            &mut text,
            "reloc",
            &[
                ("section", u32::from(*section)),
                ("halfwords", program.len() as u32),
            ],
        );
        text.push(b'\n');
        push_program(&mut text, program)?;
    }
    for place in 0..loader.export_count {
        push_export(&mut text, &loader.export(place)?);
    }
    Some(text)
}

/// A word, then other words with their numbers.
fn push_numbers(text: &mut Vec<u8>, first: &str, numbers: &[(&str, u32)]) {
    text.extend_from_slice(first.as_bytes());
    for (word, number) in numbers {
        text.push(b' ');
        text.extend_from_slice(word.as_bytes());
        text.push(b' ');
        push_decimal(text, *number);
    }
}

fn push_section(text: &mut Vec<u8>, section: &Section, place: u32) {
    text.extend(b"section ");
    push_decimal(text, place);
    let codes = [
        ("kind", section.kind),
        ("share", section.share),
        ("align", section.align),
    ];
    push_numbers(text, "", &codes.map(|(word, code)| (word, u32::from(code))));
    let sizes = [
        ("total", section.total),
        ("unpacked", section.unpacked),
        ("packed", section.raw.len() as u32),
    ];
    push_numbers(text, "", &sizes);
    text.extend(b" default ");
    push_word(text, section.address);
    text.extend(b" name ");
    match section.name {
        None => text.push(b'-'),
        Some(b"-") => text.extend(b"%2D"),
        Some(name) => push_name(text, name),
    }
    text.push(b'\n');
}

fn push_imported(text: &mut Vec<u8>, loader: &Loader) -> Option<()> {
    for library in &loader.libraries {
        text.extend(b"library ");
        push_name(text, library.name);
        push_numbers(
            text,
            "",
            &[("current", library.current), ("oldimp", library.oldimp)],
        );
        text.extend(b" options ");
        push_byte(text, library.options);
        text.push(b'\n');
    }
    let owners = loader.owners()?;
    for (place, owner) in owners.into_iter().enumerate() {
        let import = loader.import(place)?;
        text.extend_from_slice(b"import ");
        push_decimal(text, place as u32);
        text.push(b' ');
        push_name(text, import.name);
        text.extend_from_slice(b" of ");
        push_name(text, loader.libraries[owner as usize].name);
        text.extend_from_slice(b" class ");
        push_decimal(text, u32::from(import.class));
        text.extend_from_slice(if import.is_weak {
            b" weak\n"
        } else {
            b" strong\n"
        });
    }
    Some(())
}

fn push_export(text: &mut Vec<u8>, export: &Export) {
    text.extend_from_slice(b"export ");
    push_name(text, export.name);
    push_numbers(text, "", &[("class", u32::from(export.class))]);
    text.extend_from_slice(if export.section < 0 {
        b" section -"
    } else {
        b" section "
    });
    push_decimal(text, u32::from(export.section.unsigned_abs()));
    text.extend_from_slice(b" value ");
    push_word(text, export.value);
    text.push(b'\n');
}

fn push_program(text: &mut Vec<u8>, program: &[u16]) -> Option<()> {
    let mut rest = program;
    while !rest.is_empty() {
        let instruction = instructions::read(rest)?;
        let (halfwords, after) = rest.split_at(instruction.halfwords);
        for halfword in halfwords {
            push_half(text, *halfword);
            text.push(b' ');
        }
        push_instruction(text, instruction);
        rest = after;
    }
    Some(())
}

fn push_instruction(text: &mut Vec<u8>, instruction: Instruction) {
    let word = match instruction.kind {
        Kind::BySectDWithSkip => "BySectDWithSkip ",
        Kind::BySectC => "BySectC ",
        Kind::BySectD => "BySectD ",
        Kind::TVector12 => "TVector12 ",
        Kind::TVector8 => "TVector8 ",
        Kind::VTable8 => "VTable8 ",
        Kind::ImportRun => "ImportRun ",
        Kind::SmByImport => "SmByImport ",
        Kind::SmSetSectC => "SmSetSectC ",
        Kind::SmSetSectD => "SmSetSectD ",
        Kind::SmBySection => "SmBySection ",
        Kind::IncrPosition => "IncrPosition ",
        Kind::SmRepeat => "SmRepeat ",
        Kind::SetPosition => "SetPosition ",
        Kind::LgByImport => "LgByImport ",
        Kind::LgRepeat => "LgRepeat ",
        Kind::LgBySection => "LgBySection ",
        Kind::LgSetSectC => "LgSetSectC ",
        Kind::LgSetSectD => "LgSetSectD ",
    };
    text.extend_from_slice(word.as_bytes());
    push_decimal(text, instruction.first);
    if matches!(
        instruction.kind,
        Kind::BySectDWithSkip | Kind::SmRepeat | Kind::LgRepeat
    ) {
        text.push(b' ');
        push_decimal(text, instruction.second);
    }
    text.push(b'\n');
}
