//! Links the proved static library, which has to be built before this package.

use std::env;
use std::path::PathBuf;

fn main() {
    let manifest = PathBuf::from(env::var("CARGO_MANIFEST_DIR").expect("cargo sets the manifest folder"));
    let folder = manifest.join("../../target/staticlib");
    let archive = folder.join("libhasurimba.a");
    println!("cargo::rerun-if-changed={}", archive.display());
    println!("cargo::rerun-if-changed=build.rs");
    if archive.is_file() {
        println!("cargo::rustc-link-search=native={}", folder.display());
        println!("cargo::rustc-link-lib=static=hasurimba");
    } else {
        println!(
            "cargo::error=the static library is missing: {}",
            archive.display()
        );
        println!("cargo::error=build it first: tools/build hasurimba, in the folder above hosts");
    }
}
