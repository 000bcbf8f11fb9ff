//! Links `libcomaltzex.a` from `COMALTZEX_LIB_DIR`, else from the repository's
//! `target/staticlib`.

use std::env;
use std::path::PathBuf;

const LIB_DIR: &str = "COMALTZEX_LIB_DIR";

fn main() {
    println!("cargo:rerun-if-env-changed={LIB_DIR}");
    let dir = env::var_os(LIB_DIR).map_or_else(default_dir, PathBuf::from);
    let library = dir.join("libcomaltzex.a");
    assert!(
        dir.is_absolute() && library.is_file(),
        "there is no {}: run `tools/build library` in the repository's root, \
         or set {LIB_DIR} to the absolute path of the library's folder",
        library.display()
    );
    println!("cargo:rerun-if-changed={}", library.display());
    println!("cargo:rustc-link-search=native={}", dir.display());
    println!("cargo:rustc-link-lib=static=comaltzex");
}

fn default_dir() -> PathBuf {
    PathBuf::from(env!("CARGO_MANIFEST_DIR")).join("../../target/staticlib")
}
