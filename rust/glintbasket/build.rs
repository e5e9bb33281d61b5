//! Finds the proved static library: in GLINT_STATICLIB_DIR, or where `make library` writes it in this repository.
use std::env;
use std::path::{Path, PathBuf};
use std::process;

const VARIABLE: &str = "GLINT_STATICLIB_DIR";

fn main() {
    println!("cargo:rerun-if-env-changed={VARIABLE}");
    let directory = staticlib_dir();
    let library = directory.join("libcapi.a");
    println!("cargo:rerun-if-changed={}", library.display());
    if !library.exists() {
        eprintln!(
            "{} is not there: run `make library` at the repository's root, or set {VARIABLE}",
            library.display()
        );
        process::exit(1);
    }
    println!("cargo:rustc-link-search=native={}", directory.display());
    println!("cargo:rustc-link-lib=static=capi");
}

fn staticlib_dir() -> PathBuf {
    match env::var_os(VARIABLE) {
        Some(directory) => PathBuf::from(directory),
        None => {
            let package = env::var_os("CARGO_MANIFEST_DIR").expect("cargo sets it");
            Path::new(&package).join("../../target/staticlib")
        }
    }
}
