//! Lays out the catalog's sources for the compiler.
//!
//! lib.rs and metadata.rs of docs/src are written to the build directory byte for byte. One line
//! follows the last byte of metadata.rs: it declares the module `reach`, which as a child may call the
//! private handlers. durable.rs is not in docs/src; a stub stands beside them.

use std::{env, fs, path::PathBuf};

fn main() {
    let here = PathBuf::from(env::var_os("CARGO_MANIFEST_DIR").expect("cargo sets it"));
    let out = PathBuf::from(env::var_os("OUT_DIR").expect("cargo sets it"));
    let source = here.join("../../docs/src/crates/ragnordb-catalog/src");

    let read = |path: PathBuf| {
        println!("cargo::rerun-if-changed={}", path.display());
        fs::read(&path).unwrap_or_else(|error| panic!("{}: {error}", path.display()))
    };
    let write = |name: &str, bytes: &[u8]| {
        fs::write(out.join(name), bytes).unwrap_or_else(|error| panic!("{name}: {error}"));
    };
    let child = |name: &str, path: PathBuf| format!("\n#[path = {path:?}]\nmod {name};\n");

    let mut metadata = read(source.join("metadata.rs"));
    metadata.extend(child("reach", here.join("src/reach.rs")).bytes());
    write("metadata.rs", &metadata);
    write("catalog.rs", &read(source.join("lib.rs")));
    write("durable.rs", &read(here.join("src/durable.rs")));
    write(
        "sources.rs",
        child("catalog", out.join("catalog.rs")).as_bytes(),
    );
    println!(
        "cargo::rerun-if-changed={}",
        here.join("build.rs").display()
    );
}
