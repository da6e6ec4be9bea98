//! Containers that are sound.

mod common;

use std::io::Read;

use common::{hex, linked};
use pef::{Code, Container, Entry, ExportValue, Fixup, FixupTarget, Listing, SectionKind, Share, SymbolClass};

/// Where some bytes are in others.
fn position(bytes: &[u8], wanted: &[u8]) -> usize {
    bytes.windows(wanted.len()).position(|it| it == wanted).unwrap()
}

#[test]
fn imports_and_exports() {
    let bytes = linked("imports-and-exports");
    let it = Container::read(&bytes).unwrap();
    assert_eq!((it.header().current_version, it.header().section_count, it.header().instantiated_section_count), (3, 3, 2));
    assert_eq!(&it.header().architecture, b"pwpc");
    let libraries: Vec<_> = it.libraries().collect();
    let said: Vec<_> = libraries.iter().map(|it| (it.name, it.weak, it.init_before)).collect();
    assert_eq!(said, [(&b"Tools"[..], false, true), (b"Extras", true, false), (b"Idle", true, true)]);
    assert_eq!((libraries[0].current_version, libraries[0].old_imp_version, libraries[1].imports.clone()), (5, 4, 3..5));
    let said: Vec<_> = it.imports().map(|it| (it.name, libraries[it.library.unwrap()].name, it.class.number(), it.weak)).collect();
    let wanted: [(&[u8], &[u8], u8, bool); 5] = [
        (b"start", b"Tools", 0, false),
        (b"count", b"Tools", 1, false),
        (b"draw", b"Tools", 2, false),
        (b"table", b"Extras", 3, false),
        (b"beep", b"Extras", 4, true),
    ];
    assert_eq!(said, wanted);
}

#[test]
fn sections_exports_and_entries() {
    let bytes = linked("transition-vectors");
    let it = Container::read(&bytes).unwrap();
    let sections: Vec<_> = it.sections().collect();
    let said: Vec<_> = sections.iter().map(|it| (it.number, it.kind, it.share, it.total_size, it.instantiated)).take(2).collect();
    assert_eq!(said, [(0, SectionKind::Code, Share::Global, 8, true), (1, SectionKind::Data, Share::Process, 16, true)]);
    assert_eq!((sections[2].kind.to_string(), sections[2].instantiated), ("loader".to_string(), false));
    let exports: Vec<_> = it.exports().collect();
    assert_eq!((exports.len(), exports[0].name, exports[0].class), (1, &b"go"[..], SymbolClass::TransitionVector));
    assert_eq!(exports[0].value, ExportValue::InSection { section: 1, offset: 0 });
    assert_eq!((it.main(), it.init(), it.term()), (Some(Entry { section: 1, offset: 0 }), None, None));
    assert_eq!(*sections[0].expand().unwrap(), hex("0011223344556677"));
    assert_eq!((it.section(1), it.section(3), it.section(usize::MAX)), (Some(sections[1]), None, None));
}

#[test]
fn relocations() {
    let bytes = linked("transition-vectors"); // byte by byte in docs/FORMATS.md
    let rows: Vec<_> = Container::read(&bytes).unwrap().relocations().collect();
    assert_eq!((rows.len(), rows[0].number, rows[0].section, rows[0].instructions), (1, 0, 1, &[0x46, 1][..]));
    assert_eq!(Container::read(&linked("stub-library")).unwrap().relocations().count(), 0);
}

/// More additions than are read at once, and a program with an error.
#[test]
fn additions() {
    let lines: String = (0..3000).map(|at| format!("fix d {} import v\n", 8 * at)).collect();
    let script = format!("library L 1 0 -\nimport v data strong\nsection d data process 4 24000\n{lines}fix d 4 section d\n");
    let mut bytes = pef::link(&script).unwrap();
    let relocation = Container::read(&bytes).unwrap().relocations().next().unwrap();
    let at = relocation.instructions.as_ptr() as usize - bytes.as_ptr() as usize;
    let mut found: Vec<Fixup> = relocation.fixups().map(Result::unwrap).collect();
    found.sort_by_key(|it| it.offset);
    assert_eq!((found.len(), found[0].offset, found[0].target), (3001, 0, FixupTarget::Import(0)));
    assert_eq!((found.remove(1).offset, found[1].offset), (4, 8));
    assert!(found.iter().enumerate().all(|(number, it)| it.offset == 8 * number as u64 && it.target == FixupTarget::Import(0)));
    bytes[at..at + 2].copy_from_slice(&[0x90, 0]); // a repeat of what isn't there
    let error = Container::read(&bytes).unwrap().relocations().next().unwrap().fixups().next().unwrap().unwrap_err();
    assert_eq!(error.code(), Code::RelocRepeatTooFar);
}

#[test]
fn an_export_by_its_name() {
    let bytes = linked("interface"); // one slot, so the exports are in the order of the script
    let it = Container::read(&bytes).unwrap();
    let found = it.find("NewPtr").unwrap();
    assert_eq!(
        (found.number, found.name, found.value, found.class),
        (0, &b"NewPtr"[..], ExportValue::Reexport(0), SymbolClass::TransitionVector)
    );
    let found = it.find(b"Globals").unwrap();
    assert_eq!((found.number, found.value, found.class), (1, ExportValue::InSection { section: 0, offset: 0 }, SymbolClass::Data));
    assert_eq!((it.find("Global"), it.find(""), it.find(&vec![b'x'; 3])), (None, None, None));
    assert_eq!(Container::read(&linked("packed")).unwrap().find("Globals"), None);
}

#[test]
fn what_is_no_section() {
    let bytes = linked("stub-library");
    assert_eq!(Container::read(&bytes).unwrap().find("NewHandle").unwrap().value, ExportValue::Absolute(0x40B8));
}

#[test]
fn a_packed_image() {
    let bytes = linked("packed");
    let section = Container::read(&bytes).unwrap().section(0).unwrap();
    let image = section.expand().unwrap();
    assert_eq!((image.len(), section.kind), (section.unpacked_size as usize, SectionKind::Pattern));
    assert!(section.raw.len() < image.len());
    assert_eq!(image[0x20..0x24], hex("00000003"));
    let mut buffer = vec![7; image.len() + 1];
    assert_eq!(section.expand_into(&mut buffer).unwrap(), image.len());
    assert_eq!((&buffer[..image.len()], buffer[image.len()]), (&*image, 7));
    let error = section.expand_into(&mut buffer[..image.len() - 1]).unwrap_err();
    assert_eq!((error.code(), &buffer[..image.len()]), (Code::RoomTooSmall, &*image));
    // the argument of the first instruction is cut off
    let mut cut = section;
    cut.raw = &section.raw[..1];
    assert!((21..=25).contains(&cut.expand().unwrap_err().number()));
}

/// An image of plain bytes is a part of the container, and one that is asked to be too large is an error.
#[test]
fn images() {
    let bytes = linked("transition-vectors");
    let section = Container::read(&bytes).unwrap().section(0).unwrap();
    assert!(matches!(section.expand().unwrap(), std::borrow::Cow::Borrowed(_)));
    let mut buffer = [7; 9];
    assert_eq!((section.expand_into(&mut buffer).unwrap(), &buffer[..]), (8, &hex("0011223344556677 07")[..]));
    assert_eq!(section.expand_into(&mut buffer[..7]).unwrap_err().code(), Code::RoomTooSmall);
}

fn listed(bytes: &[u8]) -> String {
    let mut lines = String::new();
    Listing::open(bytes).unwrap().read_to_string(&mut lines).unwrap();
    lines
}

#[test]
fn a_listing() {
    let lines = listed(&linked("transition-vectors"));
    let lines: Vec<_> = lines.lines().collect();
    assert_eq!(
        (lines[0], *lines.last().unwrap()),
        ("container current 1 olddef 0 oldimp 0 date 0", "export go class 2 section 1 value 00000000")
    );
    assert!(lines.contains(&"4601 TVector8 2"));
    assert_eq!(Listing::open(b"").unwrap_err().number(), 1);
}

#[test]
fn a_listing_in_parts() {
    let bytes = linked("transition-vectors");
    let lines = listed(&bytes);
    for size in [1, 61, lines.len() - 1, lines.len(), lines.len() + 1] {
        let mut listing = Listing::open(&bytes).unwrap();
        let (mut parts, mut buffer) = (Vec::new(), vec![0; size]);
        loop {
            let count = listing.read_part(&mut buffer).unwrap();
            parts.extend_from_slice(&buffer[..count]);
            if count < size {
                break;
            }
        }
        assert_eq!(parts, lines.as_bytes());
        assert_eq!(listing.read_part(&mut buffer).unwrap(), 0);
    }
}

#[test]
fn names_in_mac_roman() {
    let mut bytes = linked("shared-library");
    let at = position(&bytes, b"answer");
    bytes[at..at + 6].copy_from_slice(b"\x8cnsw\x8er"); // a-ring and e-acute
    let export = Container::read(&bytes).unwrap().exports().next().unwrap();
    assert_eq!(export.name, b"\x8cnsw\x8er");
    assert!(format!("{export:?}").contains(r#"b"\x8cnsw\x8er""#), "{export:?}");
}

/// More rows than are read at once.
#[test]
fn many_imports() {
    let lines: String = (0..40_000).map(|it| format!("import n{it} data strong\n")).collect();
    let bytes = pef::link(&format!("library L 1 0 -\n{lines}")).unwrap();
    let it = Container::read(&bytes).unwrap();
    let mut imports = it.imports();
    assert_eq!(imports.size_hint(), (0, Some(40_000)));
    assert_eq!(imports.next().unwrap().number, 0);
    assert_eq!(imports.size_hint().1, Some(39_999));
    assert!(imports.enumerate().all(|(at, it)| it.number == at + 1 && it.name == format!("n{}", at + 1).as_bytes()));
    assert_eq!((it.imports().count(), pef::Damaged::read(&bytes).unwrap().imports().count()), (40_000, 40_000));
    assert!(it.imports().eq(pef::Damaged::read(&bytes).unwrap().imports()));
}

#[test]
fn codes_that_the_format_lacks() {
    let mut bytes = linked("transition-vectors");
    bytes[40 + 25] = 77; // shareKind of section 0
    let share = Container::read(&bytes).unwrap().section(0).unwrap().share;
    assert_eq!((share, share.number(), share.to_string()), (Share::Other(77), 77, "77".to_string()));
    assert_eq!(format!("{:>8}|", SectionKind::Data), "    data|");
}

#[test]
fn what_debug_says() {
    let bytes = linked("uses-library");
    let said = format!("{:?}", Container::read(&bytes).unwrap());
    assert!(said.contains("libraries: 1, imports: 1, relocations: 1, exports: 0"), "{said}");
    let said = format!("{:?}", Container::read(&bytes).unwrap().section(0).unwrap());
    assert!(said.contains("kind: Data") && said.contains("raw: 8 bytes"), "{said}");
}
