//! Tells the linker where libnimovalsa.a is: in the folder that the environment
//! variable NIMOVALSA_LIB_DIR names, or else in target/staticlib of the repository.

use std::env;
use std::path::{Path, PathBuf};

fn library_folder() -> PathBuf {
    let manifest = env::var("CARGO_MANIFEST_DIR").expect("cargo sets CARGO_MANIFEST_DIR");
    match env::var_os("NIMOVALSA_LIB_DIR") {
        Some(folder) => PathBuf::from(folder),
        None => Path::new(&manifest).join("../../target/staticlib"),
    }
}

fn main() {
    let folder = library_folder();
    let archive = folder.join("libnimovalsa.a");
    println!("cargo:rustc-link-search=native={}", folder.display());
    println!("cargo:rerun-if-changed={}", archive.display());
    println!("cargo:rerun-if-changed=build.rs");
    println!("cargo:rerun-if-env-changed=NIMOVALSA_LIB_DIR");
}
