//! Links the static library: `rt lib` in crates/entries writes it to the crate's folder out. MARKER_LIBRARY names another folder.

use std::path::PathBuf;

fn main() {
    println!("cargo:rerun-if-env-changed=MARKER_LIBRARY");
    let here = PathBuf::from(std::env::var("CARGO_MANIFEST_DIR").expect("cargo sets it"));
    let folder = std::env::var("MARKER_LIBRARY").map_or(here.join("../../crates/entries/out"), PathBuf::from);
    let archive = folder.join("libentries.a");
    println!("cargo:rerun-if-changed={}", archive.display());
    if !archive.exists() {
        println!("cargo:warning={} is missing: run `rt lib` in crates/entries first", archive.display());
    }
    println!("cargo:rustc-link-search=native={}", folder.display());
    println!("cargo:rustc-link-lib=static=entries");
}
