//! Finds the blank check by itself, which `make bench` builds.

use std::env;
use std::path::PathBuf;
use std::process::exit;

fn main() {
    println!("cargo:rerun-if-env-changed=INDRAVECK_LIBRARY");
    if env::var_os("CARGO_FEATURE_PROVED").is_none() {
        return;
    }
    let folder = match env::var_os("INDRAVECK_LIBRARY") {
        Some(folder) => PathBuf::from(folder),
        None => {
            PathBuf::from(env::var_os("CARGO_MANIFEST_DIR").unwrap()).join("../../target/staticlib")
        }
    };
    let library = folder.join("libinterface_blank.a");
    println!("cargo:rerun-if-changed={}", library.display());
    if !library.is_file() {
        eprintln!(
            "{} is not there: run `make target/staticlib/libinterface_blank.a` first, or set INDRAVECK_LIBRARY to its folder",
            library.display()
        );
        exit(1);
    }
    println!("cargo:rustc-link-search=native={}", folder.display());
}
