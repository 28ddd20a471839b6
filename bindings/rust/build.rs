//! Finds the static archive: in JAKEPURO_LIB_DIR, or where the repository's build leaves it.
use std::env;
use std::path::{Path, PathBuf};

const VARIABLE: &str = "JAKEPURO_LIB_DIR";
const ARCHIVE: &str = "libjakepuro.a";

fn main() {
    println!("cargo:rerun-if-env-changed={VARIABLE}");
    let here = env::var("CARGO_MANIFEST_DIR").unwrap();
    let dir = match env::var_os(VARIABLE) {
        Some(dir) => PathBuf::from(dir),
        None => Path::new(&here).join("../../target/staticlib"),
    };
    let archive = dir.join(ARCHIVE);
    println!("cargo:rerun-if-changed={}", archive.display());
    if !archive.is_file() {
        eprintln!("{} is missing.", archive.display());
        eprintln!("Build it with `sh tools/build.sh` in the repository,");
        eprintln!("or let {VARIABLE} name the folder that holds {ARCHIVE}.");
        std::process::exit(1);
    }
    println!("cargo:rustc-link-search=native={}", dir.display());
    println!("cargo:rustc-link-lib=static=jakepuro");
}
