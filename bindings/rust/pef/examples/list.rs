//! Lists a container: `list FILE`.

use pef::{Container, Damaged, ExportValue};

fn main() -> Result<(), Box<dyn std::error::Error>> {
    let path = std::env::args_os().nth(1).ok_or("usage: list FILE")?;
    let bytes = std::fs::read(path)?;
    match Container::read(&bytes) {
        Ok(container) => list(&container)?,
        Err(error) => {
            println!("refused {error}: {}", error.help());
            for finding in Damaged::read(&bytes)?.findings()? {
                println!("{finding}");
            }
        }
    }
    Ok(())
}

fn list(container: &Container<'_>) -> Result<(), pef::Error> {
    for section in container.sections() {
        println!("section {} {} {} size {}", section.number, section.kind, section.share, section.total_size);
    }
    let libraries: Vec<_> = container.libraries().collect();
    for import in container.imports() {
        let library = import.library.map_or(&b""[..], |number| libraries[number].name);
        println!("import {} {} of {}", import.class, import.name.escape_ascii(), library.escape_ascii());
    }
    for relocation in container.relocations() {
        for fixup in relocation.fixups() {
            let fixup = fixup?;
            println!("fixup in section {} at {:X}: {:?}", relocation.section, fixup.offset, fixup.target);
        }
    }
    for export in container.exports() {
        print!("export {} {} ", export.class, export.name.escape_ascii());
        match export.value {
            ExportValue::InSection { section, offset } => println!("in section {section} at {offset:X}"),
            ExportValue::Absolute(number) => println!("is {number:X}"),
            ExportValue::Reexport(import) => println!("is import {import}"),
            other => println!("is {other:?}"),
        }
    }
    Ok(())
}
