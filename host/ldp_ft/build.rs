//! Links libldp_ft.a, which tools/build-library.sh writes to target/staticlib at the repository's top.

use std::path::Path;

fn main() {
    let directory = Path::new(env!("CARGO_MANIFEST_DIR")).join("../../target/staticlib");
    let archive = directory.join("libldp_ft.a");
    println!("cargo::rerun-if-changed=build.rs");
    println!("cargo::rerun-if-changed={}", archive.display());
    if archive.is_file() {
        println!("cargo::rustc-link-search=native={}", directory.display());
        println!("cargo::rustc-link-lib=static=ldp_ft");
    } else {
        println!("cargo::error=the library is not built: run tools/build-library.sh at the repository's top first");
    }
}
