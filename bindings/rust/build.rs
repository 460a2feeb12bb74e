//! Tells the linker where the static library lies: the folder that SUMTURNIP_LIB names, or else the repository's target/staticlib.

use std::env;
use std::path::PathBuf;

fn main() {
    println!("cargo:rerun-if-env-changed=SUMTURNIP_LIB");
    let folder = match env::var_os("SUMTURNIP_LIB") {
        Some(folder) => PathBuf::from(folder),
        None => PathBuf::from(env::var_os("CARGO_MANIFEST_DIR").unwrap()).join("../../target/staticlib"),
    };
    let archive = folder.join("libsumturnip.a");
    assert!(archive.exists(), "libsumturnip.a is not in {}: run bindings/test, which puts it there, or let SUMTURNIP_LIB name its folder", folder.display());
    println!("cargo:rerun-if-changed={}", archive.display());
    println!("cargo:rustc-link-search=native={}", folder.display());
    println!("cargo:rustc-link-lib=static=sumturnip");
}
