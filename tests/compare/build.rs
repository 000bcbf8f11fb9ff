//! Finds the library under test: `libcomaltzex.a` in COMALTZEX_LIB_DIR, else in `target/staticlib`
//! of the repository.

use std::env;
use std::path::{Path, PathBuf};

fn main() {
    let directory = env::var_os("COMALTZEX_LIB_DIR").map_or_else(default_directory, PathBuf::from);
    let archive = directory.join("libcomaltzex.a");
    println!("cargo:rerun-if-env-changed=COMALTZEX_LIB_DIR");
    println!("cargo:rerun-if-changed={}", archive.display());
    println!("cargo:rustc-link-search=native={}", directory.display());
}

fn default_directory() -> PathBuf {
    let package = env::var_os("CARGO_MANIFEST_DIR").unwrap_or_default();
    Path::new(&package).join("../../target/staticlib")
}
