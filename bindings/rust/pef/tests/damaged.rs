//! Containers that may be damaged.

mod common;

use common::{all_linked, damaged, damaged_rows, examples, ROWS};
use pef::{findings, Code, Container, Damaged, Entry, Listing, SectionKind, SymbolClass};

#[test]
fn a_header_that_is_refused() {
    let bytes = damaged();
    assert_eq!(Container::read(&bytes).unwrap_err().number(), 4);
    let it = Damaged::read(&bytes).unwrap();
    assert_eq!((it.header().section_count, it.header().instantiated_section_count), (1, 0));
    let mut other = damaged();
    other[8..12].copy_from_slice(b"m68k");
    assert_eq!((&it.header().architecture, &Damaged::read(&other).unwrap().header().architecture), (b"pwpc", b"m68k"));
    let sections: Vec<_> = it.sections().collect();
    assert_eq!(sections.len(), 1);
    let section = sections[0];
    assert_eq!((section.number, section.name, section.kind, section.container_offset), (0, None, SectionKind::Loader, 68));
    assert_eq!((section.raw, section.instantiated), (&bytes[68..], false));
    assert_eq!((it.main(), it.init(), it.term()), (Some(Entry { section: 5, offset: 0 }), None, None));
    assert_eq!((it.libraries().count(), it.imports().count(), it.relocations().count(), it.exports().count()), (0, 0, 0, 0));
    assert_eq!(it.findings().unwrap().iter().map(|it| it.code.number()).collect::<Vec<_>>(), [4, 16, 101]);
}

#[test]
fn a_damaged_loader_section_hides_no_section() {
    let bytes = &damaged()[..100];
    let it = Damaged::read(bytes).unwrap();
    assert_eq!(it.section(0).unwrap().raw, &bytes[68..]);
    assert_eq!(
        (it.main(), it.libraries().count(), it.imports().count(), it.relocations().count(), it.exports().count()),
        (None, 0, 0, 0, 0)
    );
    assert_eq!(it.find("main"), None);
}

#[test]
fn a_damaged_row_hides_no_other() {
    let bytes = damaged_rows();
    let it = Damaged::read(&bytes).unwrap();
    let libraries: Vec<_> = it.libraries().collect();
    assert_eq!(
        (libraries.len(), libraries[0].name, libraries[0].current_version, libraries[0].weak, libraries[0].init_before),
        (1, &b""[..], 1, false, false)
    );
    let imports: Vec<_> = it.imports().collect();
    assert_eq!((imports.len(), imports[0].name, imports[0].library, imports[0].class), (1, &b"v"[..], None, SymbolClass::Data));
    let relocations: Vec<_> = it.relocations().collect();
    assert_eq!((relocations.len(), relocations[0].section, relocations[0].instructions), (1, 1, &[][..]));
    assert_eq!(*it.section(0).unwrap().expand().unwrap(), [0, 0, 0, 0x2A]);
    assert_eq!(Listing::open(&bytes).unwrap_err().number(), 13);
    let mut fixups = relocations[0].fixups();
    assert_eq!(fixups.next().unwrap().unwrap_err().code(), Code::NotThere);
    assert!(fixups.next().is_none());
}

#[test]
fn counts_that_are_too_large() {
    let mut bytes = pef::link(ROWS).unwrap();
    bytes[144 + 24..144 + 28].copy_from_slice(&[0xFF; 4]); // the count of libraries
    let it = Damaged::read(&bytes).unwrap();
    // from the library on, the rest of the loader section is read as libraries of 24 bytes
    assert_eq!(it.libraries().count(), (bytes.len() - 200) / 24);
    assert_eq!((it.libraries().next().unwrap().name, it.imports().count(), it.relocations().count()), (&b"L"[..], 0, 0));
}

#[test]
fn sections_past_the_end_are_left_out() {
    let bytes = pef::link(ROWS).unwrap();
    let numbers: Vec<_> = Damaged::read(&bytes[..100]).unwrap().sections().map(|it| it.number).collect();
    assert_eq!(numbers, [0, 1]);
    let it = Damaged::read(&bytes[..100]).unwrap();
    assert_eq!(
        (it.section(1).unwrap().number, it.section(2), it.sections().nth(1).unwrap().number, it.sections().nth(2)),
        (1, None, 1, None)
    );
    assert_eq!(Damaged::read(&bytes[..130]).unwrap().section(0).unwrap().raw, [0, 0]);
}

#[test]
fn a_sound_container_is_read_as_ever() {
    for bytes in all_linked() {
        let (it, other) = (Container::read(&bytes).unwrap(), Damaged::read(&bytes).unwrap());
        assert_eq!(it.header(), other.header());
        assert!(it.sections().eq(other.sections()));
        assert!(it.libraries().eq(other.libraries()));
        assert!(it.imports().eq(other.imports()));
        assert!(it.exports().eq(other.exports()));
        let programs = |all: pef::Relocations<'_>| all.map(|it| (it.number, it.section, it.instructions.to_vec())).collect::<Vec<_>>();
        assert_eq!(programs(it.relocations()), programs(other.relocations()));
        assert_eq!((it.main(), it.init(), it.term()), (other.main(), other.init(), other.term()));
        for export in it.exports() {
            assert_eq!(it.find(export.name), other.find(export.name));
            assert!(it.find(export.name).is_some());
        }
    }
}

/// What is found in a damaged container never contradicts the other calls, and the iterators give as many rows as the container says.
#[test]
fn containers_of_all_kinds() {
    let cases = std::fs::read_dir(examples().join("../conformance/cases")).unwrap().map(|it| it.unwrap().path());
    let containers: Vec<_> = cases.filter(|it| it.extension().map_or(false, |end| end == "pef")).collect();
    assert!(containers.len() > 250);
    containers.iter().for_each(|it| check(&std::fs::read(it).unwrap()));
}

fn check(bytes: &[u8]) {
    let errors: Vec<u32> = findings(bytes).unwrap().iter().filter(|it| it.is_error).map(|it| it.code.number()).collect();
    match Container::read(bytes) {
        Err(error) => assert!(errors.contains(&error.number()), "{error} {errors:?}"),
        Ok(it) => {
            assert!(errors.iter().all(|number| *number > 20), "{errors:?}");
            walk(&it);
        }
    }
    match Damaged::read(bytes) {
        Err(error) => assert!(matches!(error.number(), 1 | 2)),
        Ok(it) => {
            assert!(it.sections().count() <= usize::from(it.header().section_count));
            assert!(it.sections().all(|it| it.raw.is_empty() || bytes.as_ptr_range().contains(&it.raw.as_ptr())));
            let _ = format!("{it:?} {:?}", (it.libraries().count(), it.imports().count(), it.relocations().count(), it.exports().count()));
        }
    }
}

/// Reads all of a container that isn't refused.
fn walk(it: &Container<'_>) {
    assert_eq!(it.sections().count(), usize::from(it.header().section_count));
    let said = format!("{it:?}");
    let counts = [
        ("libraries", it.libraries().count()),
        ("imports", it.imports().count()),
        ("relocations", it.relocations().count()),
        ("exports", it.exports().count()),
    ];
    for (word, count) in counts {
        assert!(said.contains(&format!("{word}: {count}")), "{said}");
    }
    for section in it.sections() {
        if section.unpacked_size < 1 << 20 {
            let _ = section.expand();
        }
    }
    for relocation in it.relocations() {
        let last = relocation.fixups().take(5000).last();
        assert!(relocation.instructions.is_empty() || last.is_some() || relocation.fixups().next().is_none());
    }
}
