//! Links libsuhkelva.a from the folder SUHKELVA_LIBRARY, a full path, by default crates/suhkelva/out at the root of the repository.

use std::env;
use std::path::{Path, PathBuf};

fn main() {
    println!("cargo:rerun-if-changed=build.rs");
    println!("cargo:rerun-if-env-changed=SUHKELVA_LIBRARY");
    let folder = match env::var_os("SUHKELVA_LIBRARY") {
        Some(folder) => PathBuf::from(folder),
        None => {
            let package = env::var("CARGO_MANIFEST_DIR").expect("set by cargo");
            Path::new(&package).join("../../crates/suhkelva/out")
        }
    };
    let archive = folder.join("libsuhkelva.a");
    assert!(
        archive.exists(),
        "no {}: run oracle/build-rattle, or name the folder in SUHKELVA_LIBRARY",
        archive.display()
    );
    println!("cargo:rerun-if-changed={}", archive.display());
    println!("cargo:rustc-link-search=native={}", folder.display());
    println!("cargo:rustc-link-lib=static=suhkelva");
}
