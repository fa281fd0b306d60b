//! Links libmoachest.a, which `tools/build` makes. MOACHEST_ARCHIVE_DIR names its folder; else it is target/staticlib of the repository.

use std::env;
use std::path::{Path, PathBuf};

fn main() {
    println!("cargo:rerun-if-env-changed=MOACHEST_ARCHIVE_DIR");
    let here = env::var("CARGO_MANIFEST_DIR").expect("cargo names the crate's folder");
    let dir = match env::var_os("MOACHEST_ARCHIVE_DIR") {
        Some(dir) => PathBuf::from(dir),
        None => Path::new(&here).join("../../target/staticlib"),
    };
    let archive = dir.join("libmoachest.a");
    println!("cargo:rerun-if-changed={}", archive.display());
    if !archive.is_file() {
        println!("cargo:warning={} is missing: run tools/build, or set MOACHEST_ARCHIVE_DIR", archive.display());
    }
    println!("cargo:rustc-link-search=native={}", dir.display());
    println!("cargo:rustc-link-lib=static=moachest");
}
