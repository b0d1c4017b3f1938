//! Links the product's static library, unless the stand-in takes its place.

use std::env::var_os;
use std::path::{Path, PathBuf};

/// Names the folder with the library, where it is not the usual one.
const FOLDER: &str = "HIKWALLU_STATICLIB";

fn main() {
    println!("cargo:rerun-if-env-changed={FOLDER}");
    if var_os("CARGO_FEATURE_FAKE").is_some() {
        println!("cargo:rerun-if-changed=build.rs");
        return;
    }
    let folder = folder();
    let library = folder.join("libexports.a");
    println!("cargo:rerun-if-changed={}", library.display());
    if !library.is_file() {
        eprintln!(
            "{} is not there: make it by `tests/build` at the repository's root, or \
             name its folder in {FOLDER}",
            library.display()
        );
        std::process::exit(1);
    }
    println!("cargo:rustc-link-search=native={}", folder.display());
    println!("cargo:rustc-link-lib=static=exports");
}

fn folder() -> PathBuf {
    match var_os(FOLDER) {
        Some(folder) => PathBuf::from(folder),
        None => {
            let package = var_os("CARGO_MANIFEST_DIR").unwrap_or_default();
            Path::new(&package).join("../../target/staticlib")
        }
    }
}
