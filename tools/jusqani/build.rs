//! Finds the proved static library for the linker.

use std::path::PathBuf;
use std::{env, process};

fn main() {
    let manifest = env::var("CARGO_MANIFEST_DIR").expect("cargo names the crate's directory");
    let directory = PathBuf::from(manifest).join("../../target/staticlib");
    let archive = directory.join("libjusqani.a");
    println!("cargo:rerun-if-changed={}", archive.display());
    if !archive.is_file() {
        eprintln!(
            "the proved library target/staticlib/libjusqani.a is not there: run tools/library"
        );
        process::exit(1);
    }
    println!("cargo:rustc-link-search=native={}", directory.display());
    println!("cargo:rustc-link-lib=static=jusqani");
}
