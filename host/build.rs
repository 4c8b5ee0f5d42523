//! Links the proved archives that tests/boundary/archives wrote to ../target/staticlib, those that ../include/archives.txt lists.

use std::path::PathBuf;

fn main() {
    let host = PathBuf::from(std::env::var_os("CARGO_MANIFEST_DIR").expect("cargo sets it"));
    let archives = host.join("../target/staticlib");
    let list = host.join("../include/archives.txt");
    println!("cargo:rerun-if-changed=build.rs");
    println!("cargo:rerun-if-changed={}", list.display());
    println!("cargo:rustc-link-search=native={}", archives.display());
    let names = std::fs::read_to_string(&list).unwrap_or_else(|error| panic!("{}: {error}", list.display()));
    for name in names.lines().filter(|line| !line.starts_with('#')) {
        let archive = archives.join(format!("lib{name}.a"));
        println!("cargo:rerun-if-changed={}", archive.display());
        assert!(archive.exists(), "no {}: run tests/boundary/archives first", archive.display());
        println!("cargo:rustc-link-lib=static={name}");
    }
}
