//! Finds the static library: in the folder that `HANNUVOZH_LIBRARY` names, or where `tools/staticlib lookup` puts it.

use std::env;
use std::path::PathBuf;

fn main() {
    println!("cargo::rerun-if-env-changed=HANNUVOZH_LIBRARY");
    let here = PathBuf::from(env::var_os("CARGO_MANIFEST_DIR").expect("cargo names the crate's folder"));
    let folder = env::var_os("HANNUVOZH_LIBRARY").map_or_else(|| here.join("../../target/staticlib"), PathBuf::from);
    let archive = folder.join("liblookup.a");
    println!("cargo::rerun-if-changed={}", archive.display());
    if !archive.is_file() {
        println!("cargo::error=no {}: make it by `tools/staticlib lookup` at the project's root", archive.display());
    }
    println!("cargo::rustc-link-search=native={}", folder.display());
    println!("cargo::rustc-link-lib=static=lookup");
}
