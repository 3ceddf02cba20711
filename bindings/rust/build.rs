//! Links the library that `./m16c library` builds, or the archive that M16C_LIBRARY names.

use std::env;
use std::path::{Path, PathBuf};

fn main() {
    println!("cargo:rerun-if-env-changed=M16C_LIBRARY");
    let archive = env::var_os("M16C_LIBRARY").map_or_else(built_here, PathBuf::from);
    println!("cargo:rerun-if-changed={}", archive.display());
    assert!(archive.is_file(), "no library at {}: ./m16c library builds it", archive.display());
    let stem = archive.file_stem().and_then(|stem| stem.to_str()).unwrap_or_default();
    let name = stem.strip_prefix("lib").expect("an archive is called libNAME.a");
    let folder = archive.parent().unwrap_or(Path::new("."));
    println!("cargo:rustc-link-search=native={}", folder.display());
    println!("cargo:rustc-link-lib=static={name}");
}

fn built_here() -> PathBuf {
    let here = env::var_os("CARGO_MANIFEST_DIR").expect("cargo names the crate's folder");
    Path::new(&here).join("../../target/library/libm16c.a")
}
