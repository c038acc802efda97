//! Links target/staticlib/libtautlichen.a of the repository, which `.ci/staticlib tautlichen_c tautlichen` writes.

use std::path::Path;

fn main() {
    let archives = Path::new(env!("CARGO_MANIFEST_DIR")).join("../../target/staticlib");
    let archive = archives.join("libtautlichen.a");
    assert!(archive.exists(), "{} is missing: .ci/staticlib tautlichen_c tautlichen", archive.display());
    println!("cargo:rustc-link-search=native={}", archives.display());
    println!("cargo:rustc-link-lib=static=tautlichen");
    println!("cargo:rerun-if-changed={}", archive.display());
}
