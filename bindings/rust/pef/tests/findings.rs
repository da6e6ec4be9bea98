//! All errors of a container and notes on it, and reports.

mod common;

use std::io::Read;

use common::{all_linked, damaged};
use pef::{findings, Code, Container, Damaged, DetailKind, Finding, Part, Report};

/// The number, whether it is an error, the place, and the detail with its kind.
type Fields = (u32, bool, Part, usize, usize, Option<usize>, Option<(DetailKind, u64)>);

fn fields(it: &Finding) -> Fields {
    let place = it.place.unwrap();
    (it.code.number(), it.is_error, place.part, place.row, place.field, place.offset, it.detail.map(|detail| (it.detail_kind, detail)))
}

fn found(bytes: &[u8]) -> Vec<Fields> {
    findings(bytes).unwrap().iter().map(fields).collect()
}

#[test]
fn errors_and_then_notes() {
    assert_eq!(
        found(&damaged()),
        [
            (4, true, Part::ContainerHeader, 0, 12, Some(12), None),
            (16, true, Part::MainEntry, 0, 0, Some(68), None),
            (101, false, Part::ContainerHeader, 0, 36, Some(36), None),
        ]
    );
    let said: Vec<String> = findings(&damaged()).unwrap().iter().map(Finding::to_string).collect();
    assert_eq!(
        said,
        [
            "4 BadFormatVersion in container header at 0xC",
            "16 BadEntry in main entry point at 0x44",
            "101 ReservedNotZero in container header at 0x24"
        ]
    );
}

#[test]
fn a_word_past_its_section() {
    // The headers have 96 bytes, the section's are at 96, and the loader section at 112: the program is at 112 + 56 + 12.
    let mut bytes = pef::link("section d data process 4 8\nbytes d 0102030405060708\nfix d 0 section d\nfix d 4 section d\n").unwrap();
    assert_eq!(bytes[180..182], [0x40, 1]); // a run of two words
    bytes[181] = 2;
    assert_eq!(found(&bytes), [(37, true, Part::Program, 0, 0, Some(180), Some((DetailKind::Word, 8)))]);
}

#[test]
fn many() {
    // each section has an alignment above 31: the field is at 26 of its header
    let count: u16 = 1000;
    let mut bytes = b"Joy!peffpwpc".to_vec();
    bytes.extend([0, 0, 0, 1]);
    bytes.extend([0; 16]);
    bytes.extend(count.to_be_bytes().repeat(2));
    bytes.extend([0; 4]);
    for _ in 0..count {
        bytes.extend([0xFF; 4]);
        bytes.extend([0; 20]);
        bytes.extend([1, 1, 32, 0]);
    }
    let found = findings(&bytes).unwrap();
    let mut rows: Vec<_> = found.iter().map(|it| (it.code.number(), it.place.unwrap().row, it.place.unwrap().offset)).collect();
    rows.sort_unstable();
    let mut wanted: Vec<_> = (0..1000).map(|row| (9, row, Some(40 + 28 * row + 26))).collect();
    wanted.push((10, 0, Some(0)));
    assert!(rows == wanted, "{} findings", rows.len());
}

#[test]
fn what_is_no_container() {
    let mut other = damaged();
    other[0] = b'j';
    for (bytes, number) in [(&b""[..], 1), (b"Joy!", 1), (&damaged()[..39], 1), (&other, 2)] {
        let found = findings(bytes).unwrap();
        assert_eq!((found.len(), found[0].code.number(), found[0].place.and_then(|it| it.offset)), (1, number, Some(0)));
        assert_eq!(Damaged::read(bytes).unwrap_err().number(), number);
    }
}

#[test]
fn a_sound_container_has_no_errors() {
    for bytes in all_linked() {
        assert!(Container::read(&bytes).unwrap().findings().unwrap().iter().all(|it| !it.is_error));
    }
}

fn text(mut report: Report) -> String {
    let mut text = String::new();
    report.read_to_string(&mut text).unwrap();
    text
}

/// The report on two containers in a file, and on a file whose path isn't UTF-8.
#[test]
fn a_report_on_a_file() {
    let mut two = damaged();
    two.extend([0; 4]);
    two.extend(damaged());
    let said = text(Report::of_file("two of them", &two).unwrap());
    let begins = format!("{{\"file\":\"two of them\",\"file_bytes\":\"two%20of%20them\",\"size\":{}", two.len());
    assert!(said.starts_with(&begins) && said.ends_with("}\n"), "{said}");
    assert!(said.contains("\"offset\":128"), "{said}");
    assert!(text(Report::of_file(b"caf\xE9", b"").unwrap()).starts_with("{\"file\":null,\"file_bytes\":\"caf%E9\""));
    // a report has what it was made of no more
    let report = {
        let bytes = damaged();
        Report::of_container(&bytes).unwrap()
    };
    let said = text(report);
    assert!(said.starts_with('{') && said.ends_with('}') && said.contains("BadFormatVersion"), "{said}");
}

#[test]
fn a_report_in_parts() {
    let bytes = damaged();
    let whole = text(Report::of_container(&bytes).unwrap());
    for size in [1, 61, whole.len() - 1, whole.len(), whole.len() + 1] {
        let mut report = Report::of_container(&bytes).unwrap();
        let (mut parts, mut buffer) = (Vec::new(), vec![0; size]);
        loop {
            let count = report.read_part(&mut buffer).unwrap();
            parts.extend_from_slice(&buffer[..count]);
            if count < size {
                break;
            }
        }
        assert_eq!(parts, whole.as_bytes());
        assert_eq!(report.read_part(&mut buffer).unwrap(), 0);
        assert_eq!(report.read_part(&mut []).unwrap(), 0);
    }
}

/// The parts of the report on a file are its text, one after the other.
#[test]
fn parts_of_a_report() {
    let two = [damaged(), vec![0; 4], damaged()].concat();
    for file in [&b""[..], &damaged(), &two] {
        let parts: Vec<String> = Report::parts_of_file("two of them", file).map(|it| text(it.unwrap())).collect();
        assert_eq!(parts.concat(), text(Report::of_file("two of them", file).unwrap()));
        let containers: Vec<_> = Report::containers_of_file(file).collect();
        assert_eq!(parts.len(), 2 + containers.len());
        for (it, part) in containers.iter().zip(&parts[1..]) {
            assert_eq!(text(it.report().unwrap()), *part);
            assert_eq!(it.bytes(), &file[it.offset()..]);
        }
        assert!(containers.iter().map(|it| it.number()).eq(0..containers.len() as u64));
    }
}

/// Rows of a container are in its report as they are given.
#[test]
fn rows_of_a_report() {
    let script: String = (0..5).map(|it| format!("absolute n{it} data {it}\n")).collect();
    let bytes = pef::link(&format!("versions 1 0 0\n{script}")).unwrap();
    let it = Report::containers_of_file(&bytes).next().unwrap();
    let rows = |range| text(it.rows(Part::Export, range).unwrap());
    let (whole, excerpt) = (text(it.report().unwrap()), text(it.excerpt(2).unwrap()));
    assert!(whole.contains(&(rows(0..2) + &rows(2..9))) && rows(2..9).starts_with(','));
    assert!(excerpt.contains(&rows(0..2)) && !excerpt.contains(&rows(2..3)));
    assert_eq!((rows(5..6), rows(3..3)), (String::new(), String::new()));
    assert_eq!(it.rows(Part::Line, 0..1).unwrap_err().code(), Code::NotThere);
}

/// A report may be read by another thread than the one that made it.
#[test]
fn a_report_goes_to_another_thread() {
    let report = Report::of_container(&damaged()).unwrap();
    let here = text(Report::of_container(&damaged()).unwrap());
    assert_eq!(std::thread::spawn(move || text(report)).join().unwrap(), here);
}
