//! Makes libpef and says how to link it.
//!
//! The source `pef.c` is compiled, by the compiler that `CC_` with the name of the target names, or `CC`, or else by `cc`. Two variables ask
//! for an installed library in its place: `PEF_LIB_DIR` names its folder, and with `PEF_SYS_USE_PKG_CONFIG=1` pkg-config finds it. Of these
//! libraries the static one is linked if `PEF_STATIC` is 1, or if there is no shared one.

use std::env;
use std::path::{Path, PathBuf};
use std::process::{exit, Command};

/// The version of the library that has all that is declared.
const VERSION: &str = env!("CARGO_PKG_VERSION");

fn main() {
    for name in ["PEF_LIB_DIR", "PEF_STATIC", "PEF_SYS_USE_PKG_CONFIG", "PKG_CONFIG", "PKG_CONFIG_PATH", "PKG_CONFIG_LIBDIR", "DOCS_RS"] {
        println!("cargo:rerun-if-env-changed={name}");
    }
    println!("cargo:rerun-if-changed=build.rs");
    if env::var_os("DOCS_RS").is_some() {
        return;
    }
    if let Err(sentence) = known_machine().and_then(|()| link()) {
        eprintln!("pef-sys: {sentence}");
        exit(1);
    }
}

fn is_set(name: &str) -> bool {
    env::var_os(name).map_or(false, |value| value == "1")
}

/// The library has addresses of 64 bits in its structs, and numbers whose low bytes come first.
fn known_machine() -> Result<(), String> {
    match (&*variable("CARGO_CFG_TARGET_POINTER_WIDTH")?, &*variable("CARGO_CFG_TARGET_ENDIAN")?) {
        ("64", "little") => Ok(()),
        (width, endian) => Err(format!(
            "libpef needs a little-endian machine with 64-bit addresses, and the target is {endian}-endian with {width}-bit ones"
        )),
    }
}

fn link() -> Result<(), String> {
    match env::var_os("PEF_LIB_DIR") {
        Some(folder) => find_in(&PathBuf::from(folder)),
        None if is_set("PEF_SYS_USE_PKG_CONFIG") => ask_pkg_config(),
        None => compile(),
    }
}

// --- an installed library ---

fn find_in(folder: &Path) -> Result<(), String> {
    let (shared, archive) = (folder.join("libpef.so"), folder.join("libpef.a"));
    let kind = match (shared.is_file() && !is_set("PEF_STATIC"), archive.is_file()) {
        (true, _) => "dylib",
        (false, true) => "static",
        (false, false) if is_set("PEF_STATIC") => {
            return Err(format!("there is no libpef.a in {}, which PEF_LIB_DIR names", folder.display()))
        }
        (false, false) => return Err(format!("there is no libpef.so and no libpef.a in {}, which PEF_LIB_DIR names", folder.display())),
    };
    println!("cargo:rerun-if-changed={}", if kind == "static" { archive } else { shared }.display());
    println!("cargo:rustc-link-search=native={}", folder.display());
    println!("cargo:rustc-link-lib={kind}=pef");
    Ok(())
}

fn ask_pkg_config() -> Result<(), String> {
    let command = env::var_os("PKG_CONFIG").unwrap_or_else(|| "pkg-config".into());
    let asked = |words: &[&str]| Command::new(&command).args(words).arg("pef").output().ok().filter(|it| it.status.success());
    let flags = asked(&["--libs-only-L", "--keep-system-libs"]).ok_or(
        "pkg-config finds no libpef: install libpef-dev, or leave out PEF_SYS_USE_PKG_CONFIG, and the crate compiles its own source",
    )?;
    if asked(&["--atleast-version", VERSION]).is_none() {
        return Err(format!("the libpef that pkg-config finds is older than {VERSION}"));
    }
    for flag in String::from_utf8_lossy(&flags.stdout).split_whitespace() {
        println!("cargo:rustc-link-search=native={}", flag.trim_start_matches("-L"));
    }
    println!("cargo:rustc-link-lib={}=pef", if is_set("PEF_STATIC") { "static" } else { "dylib" });
    Ok(())
}

// --- the source ---

fn compile() -> Result<(), String> {
    let (source, header) = source_and_header()?;
    let out = PathBuf::from(variable("OUT_DIR")?);
    let (object, archive) = (out.join("pef.o"), out.join(if is_for_msvc() { "pef.lib" } else { "libpef.a" }));
    run(compiler()?.arg("-I").arg(header).arg("-c").arg(source).arg("-o").arg(&object))?;
    // an archive that is there would be added to
    let _ = std::fs::remove_file(&archive);
    let archiver = named("AR").unwrap_or_else(|| if is_for_msvc() { "llvm-ar".into() } else { "ar".into() });
    run(Command::new(archiver).arg("crs").arg(&archive).arg(&object))?;
    println!("cargo:rustc-link-search=native={}", out.display());
    println!("cargo:rustc-link-lib=static=pef");
    Ok(())
}

/// `pef.c`, and the folder of `pef.h`. A crate has both, and in the repository the first is made.
fn source_and_header() -> Result<(PathBuf, PathBuf), String> {
    let here = PathBuf::from(variable("CARGO_MANIFEST_DIR")?);
    let (packed, repository) = (here.join("source"), here.join("../../.."));
    let places = [(packed.join("pef.c"), packed), (repository.join("out/source/pef.c"), repository.join("include"))];
    for (source, _) in &places {
        println!("cargo:rerun-if-changed={}", source.display());
    }
    let found = places.into_iter().find(|(source, header)| source.is_file() && header.join("pef.h").is_file());
    found.ok_or_else(|| {
        "this copy of the crate has no source/pef.c: tools/c-source makes it, or PEF_LIB_DIR names the folder of a library".into()
    })
}

fn is_for_msvc() -> bool {
    env::var_os("CARGO_CFG_TARGET_ENV").map_or(false, |value| value == "msvc")
}

/// What the environment says of the target, or else of all targets.
fn named(name: &str) -> Option<String> {
    let target = env::var("TARGET").unwrap_or_default();
    let names = [format!("{name}_{target}"), format!("{name}_{}", target.replace('-', "_")), name.into()];
    names.into_iter().find_map(|name| {
        println!("cargo:rerun-if-env-changed={name}");
        env::var(name).ok()
    })
}

/// The compiler with its options. What names it may have several words. The options are always these, since they decide how much stack a
/// call takes, and `CFLAGS` comes after them.
fn compiler() -> Result<Command, String> {
    let (host, target) = (variable("HOST")?, variable("TARGET")?);
    let words = match named("CC") {
        Some(words) => words,
        None if host == target => if is_for_msvc() { "clang" } else { "cc" }.into(),
        None => return Err(format!("CC_{} has to name a C compiler for {target}, or CC", target.replace('-', "_"))),
    };
    let mut words = words.split_whitespace();
    let mut command = Command::new(words.next().ok_or("CC names no compiler")?);
    command.args(words).args(["-O2", "-w"]);
    if env::var_os("CARGO_CFG_WINDOWS").is_none() {
        command.arg("-fPIC");
    }
    command.args(named("CFLAGS").unwrap_or_default().split_whitespace());
    Ok(command)
}

fn run(command: &mut Command) -> Result<(), String> {
    let name = command.get_program().to_string_lossy().into_owned();
    match command.status() {
        Ok(status) if status.success() => Ok(()),
        Ok(_) => Err(format!("{name} failed")),
        Err(_) => Err(format!("{name} is missing, which has to make a library of pef.c: CC and AR name other programs")),
    }
}

fn variable(name: &str) -> Result<String, String> {
    env::var(name).map_err(|_| format!("{name} isn't set, so this isn't run by cargo"))
}
