//! Compares the declarations with what the C compiler says of the header: the size of each struct, the size and the offset of each
//! field, and each constant.

use std::fmt::Write as _;
use std::mem::{size_of, size_of_val, MaybeUninit};
use std::path::PathBuf;
use std::process::Command;
use std::ptr::addr_of;

use pef_sys::*;

/// Lines of the numbers, and the lines of a program in C that prints the same.
#[derive(Default)]
struct Compared {
    numbers: String,
    program: String,
}

impl Compared {
    fn add(&mut self, name: &str, number: i128, in_c: &str) {
        let _ = writeln!(self.numbers, "{name} {number}");
        // without a sign the greatest size would be -1
        let (form, kind) = if number < 0 { ("%lld", "long long") } else { ("%llu", "unsigned long long") };
        let _ = writeln!(self.program, "    printf(\"{name} {form}\\n\", ({kind})({in_c}));");
    }
}

macro_rules! places {
    ($($name:ident { $($field:ident)* })*) => {
        fn compare_structs(compared: &mut Compared) {
            $({
                let name = stringify!($name);
                compared.add(name, size_of::<$name>() as i128, &format!("sizeof(struct {name})"));
                let it = MaybeUninit::<$name>::zeroed();
                // no struct has a field in which zero bytes are no value
                let it = unsafe { it.assume_init() };
                $({
                    let field = stringify!($field).trim_start_matches("r#");
                    let offset = addr_of!(it.$field) as usize - addr_of!(it) as usize;
                    compared.add(&format!("{name}.{field}"), offset as i128, &format!("offsetof(struct {name}, {field})"));
                    let size = size_of_val(&it.$field);
                    compared.add(&format!("{name}.{field}:"), size as i128, &format!("sizeof(((struct {name} *)0)->{field})"));
                })*
            })*
        }
    };
}

macro_rules! constants {
    ($($name:ident)*) => {
        fn compare_constants(compared: &mut Compared) {
            $(compared.add(stringify!($name), $name as i128, stringify!($name));)*
        }
    };
}

include!("places.rs");

#[test]
fn as_the_c_compiler_has_it() {
    let here = PathBuf::from(env!("CARGO_MANIFEST_DIR"));
    let header = here.join("../../../include/pef.h");
    let mut compared = Compared::default();
    compare_structs(&mut compared);
    compare_constants(&mut compared);
    assert!(compared.numbers.lines().count() > 300);

    let room = PathBuf::from(env!("CARGO_TARGET_TMPDIR"));
    let (source, program) = (room.join("layout.c"), room.join("layout"));
    let text = format!(
        "#include \"{}\"\n#include <stdio.h>\n\nint main(void)\n{{\n{}    printf(\"%s\\n\", PEF_VERSION);\n    return 0;\n}}\n",
        header.display(),
        compared.program
    );
    std::fs::write(&source, text).unwrap();
    let compiler = std::env::var("CC").unwrap_or_else(|_| "cc".into());
    // the header's inline functions name the library, which this program doesn't need
    let compiled = Command::new(compiler).args(["-std=c11", "-O1", "-Wall", "-Werror", "-o"]).arg(&program).arg(&source).status().unwrap();
    assert!(compiled.success());
    let said = String::from_utf8(Command::new(&program).output().unwrap().stdout).unwrap();
    let wanted = format!("{}{PEF_VERSION}\n", compared.numbers);
    for (found, wanted) in wanted.lines().zip(said.lines()) {
        assert_eq!(found, wanted);
    }
    assert_eq!(said, wanted);
}

#[test]
fn initial_values_are_those_of_the_header() {
    assert!(!PEF_NO_BYTES.at.is_null() && PEF_NO_BYTES.length == 0);
    assert!(!PEF_NO_CONTEXT.is_open && PEF_NO_CONTEXT.handle.is_null());
    assert_eq!(PEF_USUAL_OPTIONS.size as usize, size_of::<pef_options>());
    assert_eq!(unsafe { pef_version() }, PEF_VERSION_NUMBER);
}
