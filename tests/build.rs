//! Links the proved static library, which `rt lib` writes in crates/exports.

use std::env;
use std::path::Path;

fn main() {
    let here = env::var("CARGO_MANIFEST_DIR").expect("cargo names the package's folder");
    let folder = Path::new(&here).join("../crates/exports/out");
    let archive = folder.join("libexports.a");
    assert!(archive.exists(), "there is no crates/exports/out/libexports.a: run `rt lib` in crates/exports first");
    println!("cargo:rerun-if-changed={}", archive.display());
    println!("cargo:rustc-link-search=native={}", folder.display());
    println!("cargo:rustc-link-lib=static=exports");
}
