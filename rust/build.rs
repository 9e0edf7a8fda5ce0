//! Links the library's archive.
//!
//! LATSEFIDY_LIB_DIR is the archive's folder (default ../target/staticlib; a relative one counts from
//! this crate's folder). LATSEFIDY_LEVEL is x86-64-v3 or x86-64-v4 for the archive that
//! `tools/build-for` writes; without it the archive is the one that `tools/staticlib` writes.

use std::env::{self, VarError};
use std::path::{Path, PathBuf};
use std::process::exit;

/// Cargo shows what a failed build script says.
fn fail(sentence: String) -> ! {
    eprintln!("{sentence}");
    exit(1)
}

/// A variable's value, if it is set. Cargo runs this script again when it changes.
fn variable(name: &str) -> Option<String> {
    println!("cargo:rerun-if-env-changed={name}");
    match env::var(name) {
        Ok(value) => Some(value),
        Err(VarError::NotPresent) => None,
        Err(VarError::NotUnicode(value)) => fail(format!("{name} is {value:?}, which is not UTF-8")),
    }
}

/// The library's name for the linker, and the command that writes its archive.
fn library(level: Option<&str>) -> (String, String) {
    match level {
        None => ("latsefidy".into(), "tools/staticlib".into()),
        Some(level @ ("x86-64-v3" | "x86-64-v4")) => (format!("latsefidy-{level}"), format!("tools/build-for {level}")),
        Some(other) => fail(format!("LATSEFIDY_LEVEL is {other:?}: leave it unset, or say x86-64-v3 or x86-64-v4")),
    }
}

fn main() {
    let here = PathBuf::from(env::var_os("CARGO_MANIFEST_DIR").expect("cargo sets it"));
    let folder = variable("LATSEFIDY_LIB_DIR");
    let folder = here.join(folder.as_deref().map_or(Path::new("../target/staticlib"), Path::new));
    let (name, command) = library(variable("LATSEFIDY_LEVEL").as_deref());
    let archive = folder.join(format!("lib{name}.a"));
    println!("cargo:rerun-if-changed={}", archive.display());
    if !archive.is_file() {
        let archive = archive.display();
        fail(format!(
            "no {archive}: run `{command}` in the folder of crates.txt, or set LATSEFIDY_LIB_DIR to the folder that has it"
        ));
    }
    println!("cargo:rustc-link-search=native={}", folder.display());
    println!("cargo:rustc-link-lib=static={name}");
}
