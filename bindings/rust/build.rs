//! Links `libparis.a` of the folder which `PARIS_LIB_DIR` names, else of `bindings/c/out`.

use std::path::{Path, PathBuf};
use std::{env, process};

const VARIABLE: &str = "PARIS_LIB_DIR";

fn folder() -> PathBuf {
    match env::var_os(VARIABLE) {
        Some(folder) => PathBuf::from(folder),
        None => Path::new(env!("CARGO_MANIFEST_DIR")).join("../c/out"),
    }
}

fn main() {
    println!("cargo:rerun-if-env-changed={VARIABLE}");
    let archive = folder().join("libparis.a");
    println!("cargo:rerun-if-changed={}", archive.display());
    if let (Ok(folder), true) = (folder().canonicalize(), archive.is_file()) {
        println!("cargo:rustc-link-search=native={}", folder.display());
        println!("cargo:rustc-link-lib=static=paris");
        return;
    }
    eprintln!("paris: there is no {}", archive.display());
    eprintln!("paris: bindings/c/build makes it, bindings/c/unpack takes it from dist/lib, and {VARIABLE} names another folder");
    process::exit(1);
}
