//! Links the archive that firmware links, dist/libsevgharin.a of the
//! repository. SEVGHARIN_ARCHIVE_DIR names another folder that holds a
//! libsevgharin.a, so that the drivers can be tried on an archive known to be
//! wrong.

use std::env;
use std::path::{Path, PathBuf};

fn main() {
    println!("cargo:rerun-if-env-changed=SEVGHARIN_ARCHIVE_DIR");
    let directory = match env::var_os("SEVGHARIN_ARCHIVE_DIR") {
        Some(directory) => PathBuf::from(directory),
        None => Path::new(env!("CARGO_MANIFEST_DIR")).join("../../dist"),
    };
    let archive = directory.join("libsevgharin.a");
    println!("cargo:rerun-if-changed={}", archive.display());
    println!("cargo:rustc-link-search=native={}", directory.display());
    println!("cargo:rustc-link-lib=static=sevgharin");
}
