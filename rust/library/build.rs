//! Links `crates/face/out/libface.a` of the repository, which `tools/prove face` makes.

use std::path::Path;

fn main() {
    let here = std::env::var("CARGO_MANIFEST_DIR").expect("cargo sets the package's folder");
    let folder = Path::new(&here).join("../../crates/face/out");
    let archive = folder.join("libface.a");
    if !archive.exists() {
        panic!("{} is missing: run `tools/prove face` in the repository's root first", archive.display());
    }
    println!("cargo:rerun-if-changed={}", archive.display());
    println!("cargo:rustc-link-search=native={}", folder.display());
    println!("cargo:rustc-link-lib=static=face");
}
