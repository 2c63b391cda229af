//! Finds libulm.a: in the directory that ULM_LIB_DIR names, else in build/ of the repository.

use std::env;
use std::path::PathBuf;

fn main() {
    println!("cargo:rerun-if-env-changed=ULM_LIB_DIR");
    let directory = match env::var_os("ULM_LIB_DIR") {
        Some(directory) => PathBuf::from(directory),
        None => PathBuf::from(env!("CARGO_MANIFEST_DIR")).join("../../build"),
    };
    let archive = directory.join("libulm.a");
    assert!(
        archive.is_file(),
        "{} is not there: run `make lib`, or set ULM_LIB_DIR to the directory that holds it",
        archive.display()
    );
    println!("cargo:rerun-if-changed={}", archive.display());
    println!("cargo:rustc-link-search=native={}", directory.display());
    println!("cargo:rustc-link-lib=static=ulm");
}
