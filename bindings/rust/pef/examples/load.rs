//! Loads fragments: `load NAME=FILE ..` prepares the first, with the others as its libraries, and prints the memory of each, as `pef load`
//! does.

use std::error::Error;

use pef::{Connection, Context, Fragment};

fn main() -> Result<(), Box<dyn Error>> {
    let mut added = Vec::new();
    for word in std::env::args().skip(1) {
        let (name, path) = word.split_once('=').ok_or("usage: load NAME=FILE ..")?;
        added.push((name.to_string(), std::fs::read(path)?));
    }
    let context = Context::new()?;
    for (name, bytes) in &added {
        context.add(name, bytes)?;
    }
    let (root, _) = added.first().ok_or("usage: load NAME=FILE ..")?;
    let prepared = context.prepare(root);
    let connection = prepared.unwrap_or_else(|error| {
        println!("refused {error}");
        eprintln!("{}", error.help());
        std::process::exit(1);
    });
    print(&connection)
}

fn print(connection: &Connection<'_>) -> Result<(), Box<dyn Error>> {
    for fragment in connection.fragments() {
        println!("fragment {}", fragment.name().escape_ascii());
        for section in fragment.sections() {
            println!("section {} at {:08X} size {}", section.number(), section.address(), section.size());
            print_memory(section.address(), &section.to_vec()?);
        }
    }
    let routine = |word, it: Fragment<'_, '_>, address: Option<u32>| {
        if let Some(address) = address {
            println!("{word} {} {address:08X}", it.name().escape_ascii());
        }
    };
    connection.init_order().for_each(|it| routine("init", it, it.entries().init));
    if let Some(main) = connection.root().entries().main {
        println!("main {main:08X}");
    }
    connection.init_order().rev().for_each(|it| routine("term", it, it.entries().term));
    Ok(())
}

/// Prints bytes with their addresses, sixteen in a line, in groups of four.
fn print_memory(address: u32, bytes: &[u8]) {
    for (row, line) in bytes.chunks(16).enumerate() {
        print!("{:08X}", address as usize + 16 * row);
        for group in line.chunks(4) {
            print!(" ");
            group.iter().for_each(|byte| print!("{byte:02X}"));
        }
        println!();
    }
}
