//! What several tests need.
#![allow(dead_code)]

use std::path::{Path, PathBuf};

/// The folder of the repository's examples.
pub fn examples() -> PathBuf {
    Path::new(env!("CARGO_MANIFEST_DIR")).join("../../../examples")
}

/// The container of an example.
pub fn linked(name: &str) -> Vec<u8> {
    let script = std::fs::read(examples().join(format!("{name}.pefscript"))).unwrap();
    pef::link(&script).unwrap()
}

/// The containers of all examples that are linked, in the order of their names.
pub fn all_linked() -> Vec<Vec<u8>> {
    let mut scripts: Vec<PathBuf> = std::fs::read_dir(examples()).unwrap().map(|it| it.unwrap().path()).collect();
    scripts.retain(|it| it.extension().map_or(false, |end| end == "pefscript"));
    scripts.sort();
    scripts.iter().filter_map(|it| pef::link(&std::fs::read(it).unwrap()).ok()).collect()
}

/// The bytes of digits, in which spaces mean nothing.
pub fn hex(digits: &str) -> Vec<u8> {
    let digits: String = digits.split_whitespace().collect();
    (0..digits.len()).step_by(2).map(|at| u8::from_str_radix(&digits[at..at + 2], 16).unwrap()).collect()
}

/// A container with one section, a loader section of 56 bytes at 68. The format version is 2, the reserved field of the header is 7, and
/// the main entry point is in section 5.
pub fn damaged() -> Vec<u8> {
    let mut it = b"Joy!peffpwpc".to_vec();
    it.extend(hex("00000002 00000000 00000000 00000000 00000000 0001 0000 00000007"));
    it.extend(hex("FFFFFFFF 00000000 00000000 00000000 00000038 00000044 04 00 00 00"));
    it.extend(hex(
        "00000005 00000000 FFFFFFFF 00000000 FFFFFFFF 00000000 00000000 00000000 00000000 00000038 00000038 00000038 00000000 00000000",
    ));
    it
}

/// A library, an import and a program. The headers have 40 + 3 * 28 bytes, the bytes of section `a` are at 128, and the loader section at
/// 144: its library is at 200, its import at 224, and its relocation header at 228.
pub const ROWS: &str = "library L 1 0 -
import v data strong
section a data global 0 4
section b data process 0 8
bytes a 0000002A
fix b 0 import v
";

/// The container of ROWS: the name of the library is past the end, it has no import, and the program is too long.
pub fn damaged_rows() -> Vec<u8> {
    let mut it = pef::link(ROWS).unwrap();
    it[200..204].copy_from_slice(&[0xFF; 4]);
    it[212..216].copy_from_slice(&[0; 4]);
    it[232..236].copy_from_slice(&[0, 0, 0xFF, 0xFF]);
    it
}
