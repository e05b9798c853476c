//! Links target/staticlib/libsanding.a of this repository, and links it anew when it is another.

use std::path::Path;

fn main() {
    let folder = Path::new(env!("CARGO_MANIFEST_DIR")).join("../target/staticlib");
    let archive = folder.join("libsanding.a");
    assert!(archive.is_file(), "{} is not there: `.ci/build sanding` writes it", archive.display());
    println!("cargo::rerun-if-changed={}", archive.display());
    println!("cargo::rustc-link-search=native={}", folder.display());
    println!("cargo::rustc-link-lib=static=sanding");
}
