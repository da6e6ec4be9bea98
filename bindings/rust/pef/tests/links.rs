//! Scripts, and the errors of scripts and containers with their places.

mod common;

use common::{examples, linked};
use pef::{Code, Container, Part};

#[test]
fn a_script_of_text_or_bytes() {
    let script = "section d data process 4 4\nbytes d 0000002A\n";
    assert_eq!(pef::link(script), pef::link(script.as_bytes()));
    assert!(pef::link(&script.to_string()).unwrap().starts_with(b"Joy!peffpwpc"));
}

#[test]
fn a_container_longer_than_the_first_buffer() {
    let script = format!("section d data process 4 100000\nbytes d {}\n", "01".repeat(100_000));
    assert!(pef::link(&script).unwrap().len() > 100_000);
}

#[test]
fn the_certificates_of_a_script() {
    let printed = "pefcert 2\nsection 0\nfixups 0\nlength 0\nprogram -\nregisters *\nat 0 0 0\nend\n";
    assert_eq!(pef::distances("section d data process 4 4\n").unwrap(), printed);
    let error = pef::distances("section d data process 4 8\nfix d 0 section d\nfix d 2 section d\n").unwrap_err();
    assert_eq!((error.code(), error.line(), error.word()), (Code::ScriptOverlap, 3, Some(2)));
}

/// 129 rows of 289 labels, all different, are more.
#[test]
fn certificates_longer_than_the_first_buffer() {
    let sections: String = (1..16).map(|it| format!("section s{it} data process 0 0\n")).collect();
    let fixups: String = (0..128).map(|it| format!("fix s0 {} section s{}\n", 512 * it, it % 16)).collect();
    let lines = pef::distances(&format!("section s0 data process 0 65536\n{sections}{fixups}")).unwrap();
    assert!(lines.len() > 65536 && lines.ends_with("\nend\n"), "{}", lines.len());
}

#[test]
fn a_refused_script_has_its_place() {
    let script = "section d data process 4 8\nfix d 0 section d\nfix d 2 section d\n";
    let error = pef::link(script).unwrap_err();
    assert_eq!((error.code(), error.number(), error.name()), (Code::ScriptOverlap, 46, "Overlap"));
    assert_eq!((error.line(), error.word(), error.earlier(), error.range()), (3, Some(2), Some(2), Some(51..52)));
    assert_eq!(error.to_string(), "46 Overlap in line 3 word 2");
    assert_eq!(error.mark(), "    fix d 2 section d\n          ^\n");
    assert!(error.help().contains(' '));
    let plain = pef::Error::from(error);
    let place = plain.place().unwrap();
    assert_eq!((place.part, place.row, place.field, place.offset), (Part::Line, 3, 2, Some(51)));
    assert_eq!(plain.to_string(), "46 Overlap in line 3 word 2 at 0x33");
}

/// The marks that `pef` prints: of a word far from the beginning, of a long one, of bytes that aren't printing, and of no word.
#[test]
fn marks() {
    let far = format!("export {} data nowhere 0\n", "n".repeat(60));
    let shown = format!("    {} data nowhere 0\n{}^^^^^^^\n", "n".repeat(26), " ".repeat(36));
    assert_eq!(pef::link(&far).unwrap_err().mark(), shown);
    let long = format!("section d data {} 4 4\n", "x".repeat(200));
    let shown = format!("    section d data {}\n{}{}\n", "x".repeat(57), " ".repeat(19), "^".repeat(57));
    assert_eq!(pef::link(&long).unwrap_err().mark(), shown);
    let error = pef::link(b"section \xE9 data process 4 4\n").unwrap_err();
    assert!(error.mark().starts_with("    section ? data process 4 4\n"), "{}", error.mark());
    let error = pef::link("section\n").unwrap_err();
    assert!(error.mark().starts_with("    section\n") && error.mark().contains('^'), "{}", error.mark());
}

/// What docs/ERRORS.md shows.
#[test]
fn the_mark_of_the_page() {
    let page = std::fs::read_to_string(examples().join("../docs/ERRORS.md")).unwrap();
    let error = pef::link("section data data shared 4 4\n").unwrap_err();
    assert!(!error.mark().is_empty() && page.contains(error.mark()));
}

#[test]
fn a_refused_container_has_its_place() {
    let mut bytes = linked("imports-and-exports");
    bytes[92] = 4;
    let error = Container::read(&bytes).unwrap_err();
    let place = error.place().unwrap();
    assert_eq!((error.number(), place.part, place.row, place.field, place.offset), (7, Part::Section, 1, 24, Some(92)));
    assert_eq!(error.to_string(), "7 BadSectionKind in section 1 at 0x5C");
}

#[test]
fn refusals() {
    let bytes = linked("one-section");
    let changed = |at: usize, to: &[u8]| {
        let mut it = bytes.clone();
        it[at..at + to.len()].copy_from_slice(to);
        it
    };
    let tries = [
        (1, "TooShort", vec![]),
        (1, "TooShort", bytes[..39].to_vec()),
        (2, "BadTag", changed(0, b"j")),
        (3, "BadArchitecture", changed(8, b"m68k")),
    ];
    for (number, name, it) in tries {
        let error = Container::read(&it).unwrap_err();
        assert_eq!((error.number(), error.name()), (number, name));
        assert_eq!((error.fragment(), error.library(), error.symbol()), (None, None, None));
    }
}

/// The numbers of errors that only the program gives: of certificates, of what it reads and writes.
const OF_THE_PROGRAM: [u32; 6] = [51, 52, 71, 72, 73, 74];

/// Each number that the library has a name for is a code, and no other is.
#[test]
fn codes() {
    let mut named = 0;
    for number in 0..1000 {
        let code = Code::from(number);
        assert_eq!(code.number(), number);
        if OF_THE_PROGRAM.contains(&number) {
            continue;
        }
        let is_known = !matches!(code, Code::Other(_));
        assert_eq!(is_known, code.name() != "Unknown", "{number}");
        assert_eq!(is_known, !code.help().is_empty(), "{number}");
        if is_known {
            // the code has the words of its group before those of its name
            assert!(format!("{code:?}").ends_with(code.name()) || number > 20, "{code:?} {}", code.name());
            named += 1;
        }
    }
    assert!(named > 90, "{named}");
    assert_eq!((Code::BadTag.to_string(), Code::from(12345)), ("2 BadTag".to_string(), Code::Other(12345)));
}

#[test]
fn an_error_is_an_error_of_std() {
    fn is_error<T: std::error::Error + Send + Sync + Clone + 'static>(_: &T) {}
    let error = Container::read(b"").unwrap_err();
    is_error(&error);
    is_error(&pef::link("x\n").unwrap_err());
    let of_std = std::io::Error::from(error.clone());
    assert_eq!((of_std.kind(), of_std.to_string()), (std::io::ErrorKind::InvalidData, error.to_string()));
}

#[test]
fn the_version_is_that_of_the_header() {
    let header = std::fs::read_to_string(examples().join("../include/pef.h")).unwrap();
    let (major, minor, patch) = pef::version();
    assert!(header.contains(&format!("#define PEF_VERSION \"{major}.{minor}.{patch}\"")));
    assert_eq!(env!("CARGO_PKG_VERSION"), format!("{major}.{minor}.{patch}"));
}

/// A thread with less stack than a call takes ends the process as a stack overflow does, and not otherwise.
#[cfg(target_os = "linux")]
#[test]
fn too_little_stack() {
    if std::env::var_os("PEF_LITTLE_STACK").is_some() {
        let thread = std::thread::Builder::new().stack_size(32 << 10).spawn(|| Container::read(b"").is_err());
        let _ = thread.unwrap().join();
        return;
    }
    let again = std::env::current_exe().unwrap();
    let done = std::process::Command::new(again).args(["--exact", "too_little_stack"]).env("PEF_LITTLE_STACK", "1").output().unwrap();
    let said = String::from_utf8_lossy(&done.stderr);
    assert!(!done.status.success() && said.contains("has overflowed its stack"), "{said}");
}
