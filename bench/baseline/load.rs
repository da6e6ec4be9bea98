//! `pef load NAME=FILE ..` in plain Rust: the same lines. A refusal's line isn't printed.

mod container;
mod fill;
mod instructions;
mod loaded;
mod machine;
mod names;
mod text;

use loaded::{Instance, Loaded, load};
use std::io::{self, Write};
use text::{hex_digits, push_byte, push_decimal, push_name, push_word};

fn main() -> io::Result<()> {
    let words: Vec<String> = std::env::args().skip(1).collect();
    let pairs: Vec<(&str, &str)> = words
        .iter()
        .filter_map(|word| word.split_once('='))
        .collect();
    let files: io::Result<Vec<(&str, Vec<u8>)>> = pairs
        .iter()
        .map(|(name, path)| Ok((*name, std::fs::read(path)?)))
        .collect();
    let files = files?;
    let answered = load(&files).unwrap_or_else(|| {
        eprintln!("the fragments can't be loaded");
        std::process::exit(1)
    });
    Printer(answered).print(&mut io::stdout())
}

/// Prints fragments and their entries.
struct Printer<'a>(Loaded<'a>);

impl Printer<'_> {
    fn print(&self, output: &mut impl Write) -> io::Result<()> {
        let mut text = Vec::with_capacity(1 << 17);
        for (fragment, instances) in self.0.fragments.iter().zip(&self.0.memory) {
            text.extend(b"fragment ");
            push_name(&mut text, fragment.name.as_bytes());
            text.push(b'\n');
            for (number, instance) in instances.iter().enumerate() {
                push_heading(&mut text, number as u32, instance);
                print_memory(&mut text, instance, output)?;
            }
        }
        for place in &self.0.initialization {
            self.push_entry(&mut text, "init", *place, 1);
        }
        self.push_entry(&mut text, "main", self.0.fragments.len() - 1, 0);
        for place in self.0.initialization.iter().rev() {
            self.push_entry(&mut text, "term", *place, 2);
        }
        output.write_all(&text)
    }

    fn push_entry(&self, text: &mut Vec<u8>, word: &str, place: usize, entry: usize) {
        let fragment = &self.0.fragments[place];
        let Some((section, offset)) = fragment.loader.entries[entry] else {
            return;
        };
        text.extend(word.as_bytes());
        text.push(b' ');
        if entry != 0 {
            push_name(text, fragment.name.as_bytes());
            text.push(b' ');
        }
        push_word(
            text,
            self.0.memory[place][section as usize]
                .address
                .wrapping_add(offset),
        );
        text.push(b'\n');
    }
}

fn push_heading(text: &mut Vec<u8>, number: u32, instance: &Instance) {
    text.extend(b"section ");
    push_decimal(text, number);
    text.extend(b" at ");
    push_word(text, instance.address);
    text.extend(b" size ");
    push_decimal(text, instance.bytes.len() as u32);
    text.push(b'\n');
}

/// Lines of sixteen bytes. What is long goes out at once.
fn print_memory(
    text: &mut Vec<u8>,
    instance: &Instance,
    output: &mut impl Write,
) -> io::Result<()> {
    let mut address = instance.address;
    let (lines, rest) = instance.bytes.as_chunks::<16>();
    for bytes in lines {
        let mut line = [b' '; 45];
        line[..8].copy_from_slice(&hex_digits(address));
        for (word, digits) in bytes
            .as_chunks::<4>()
            .0
            .iter()
            .zip(line[8..44].as_chunks_mut::<9>().0)
        {
            digits[1..].copy_from_slice(&hex_digits(u32::from_be_bytes(*word)));
        }
        line[44] = b'\n';
        text.extend_from_slice(&line);
        address = address.wrapping_add(16);
        if text.len() >= 1 << 16 {
            output.write_all(text)?;
            text.clear();
        }
    }
    if !rest.is_empty() {
        push_word(text, address);
        for word in rest.chunks(4) {
            text.push(b' ');
            word.iter().for_each(|byte| push_byte(text, *byte));
        }
        text.push(b'\n');
    }
    Ok(())
}
