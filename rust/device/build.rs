//! Finds the proved library: in the folder that INDRAVECK_LIBRARY names, as `./cargo` says, or else the one that is kept in the repository.

use std::env;
use std::path::PathBuf;
use std::process::exit;

fn main() {
    println!("cargo:rerun-if-env-changed=INDRAVECK_LIBRARY");
    let folder = match env::var_os("INDRAVECK_LIBRARY") {
        Some(folder) => PathBuf::from(folder),
        None => PathBuf::from(env::var_os("CARGO_MANIFEST_DIR").unwrap()).join("../../lib/x86_64"),
    };
    let library = folder.join("libindraveck.a");
    println!("cargo:rerun-if-changed={}", library.display());
    if !library.is_file() {
        eprintln!(
            "{} is not there: run `make library` first, or set INDRAVECK_LIBRARY to its folder",
            library.display()
        );
        exit(1);
    }
    println!("cargo:rustc-link-search=native={}", folder.display());
    println!("cargo:rustc-link-lib=static=indraveck");
}
