//! Links the proved static library, `libpetsivola.a`. It is not built here: `make library`
//! proves it and writes it.

use std::env;
use std::path::{Path, PathBuf};

/// Names the directory of the archive when it is not where the repository builds it. A relative path
/// starts at this package.
const DIRECTORY_VARIABLE: &str = "PETSIVOLA_LIB_DIR";

/// Where `make library` writes in this repository, from this package.
const BUILT_HERE: &str = "../../target/staticlib";

const ARCHIVE: &str = "libpetsivola.a";

fn main() {
    println!("cargo::rerun-if-changed=build.rs");
    println!("cargo::rerun-if-env-changed={DIRECTORY_VARIABLE}");
    let directory = archive_directory();
    let archive = directory.join(ARCHIVE);
    // Also where the archive is missing: the script then runs again, and finds it once it is built.
    println!("cargo::rerun-if-changed={}", archive.display());
    if !archive.is_file() {
        println!(
            "cargo::error=there is no {}: build it with 'make library' at the \
             repository's root, or name its directory in {DIRECTORY_VARIABLE}",
            archive.display()
        );
        return;
    }
    println!("cargo::rustc-link-search=native={}", directory.display());
    println!("cargo::rustc-link-lib=static=petsivola");
}

fn archive_directory() -> PathBuf {
    let package = env::var_os("CARGO_MANIFEST_DIR").unwrap_or_default();
    let directory = env::var_os(DIRECTORY_VARIABLE).unwrap_or_else(|| BUILT_HERE.into());
    Path::new(&package).join(directory)
}
