//! Links the static libraries that `.ci/staticlib` writes: what is measured by itself, and the library as it is used.

use std::env;

fn main() {
    let root = env::var("CARGO_MANIFEST_DIR").expect("cargo names the crate's folder");
    println!("cargo:rustc-link-search=native={root}/../target/staticlib");
    for name in ["bench", "tautlichen"] {
        println!("cargo:rustc-link-lib=static={name}");
        println!("cargo:rerun-if-changed={root}/../target/staticlib/lib{name}.a");
    }
}
