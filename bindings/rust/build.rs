//! Says where libcborn.a lies: in the folder CBORN_LIBRARY_FOLDER, else in this crate's folder lib.
use std::{env, path::PathBuf};

fn main() {
    println!("cargo:rerun-if-env-changed=CBORN_LIBRARY_FOLDER");
    let folder = match env::var_os("CBORN_LIBRARY_FOLDER") {
        Some(folder) => PathBuf::from(folder),
        None => PathBuf::from(env::var_os("CARGO_MANIFEST_DIR").expect("cargo sets it")).join("lib"),
    };
    let library = folder.join("libcborn.a");
    assert!(library.exists(), "{} is missing: set CBORN_LIBRARY_FOLDER", library.display());
    println!("cargo:rerun-if-changed={}", library.display());
    println!("cargo:rustc-link-search=native={}", folder.display());
    println!("cargo:rustc-link-lib=static=cborn");
}
