//! Links the static archive of the engine.

use std::env;
use std::path::PathBuf;

/// The environment variable for the directory of the archive.
const DIRECTORY_VARIABLE: &str = "TYPE_FORMULA_ARCHIVE_DIR";

/// The directory of the archive: the environment variable, else the place where the build of the
/// repository puts it.
fn archive_directory() -> PathBuf {
    match env::var_os(DIRECTORY_VARIABLE) {
        Some(directory) => PathBuf::from(directory),
        None => PathBuf::from(env::var_os("CARGO_MANIFEST_DIR").expect("set by cargo"))
            .join("../target/staticlib"),
    }
}

/// Packages that depend on this one get the directory as `DEP_TYPE_FORMULA_DIRECTORY`. Without an
/// archive the crate can be checked and documented; where it is linked, the build ends with an
/// error, and the warning beside it says which command makes the archive.
fn main() {
    let directory = archive_directory();
    let archive = directory.join("libtype_formula.a");
    println!("cargo:rerun-if-env-changed={DIRECTORY_VARIABLE}");
    println!("cargo:rerun-if-changed={}", archive.display());
    println!("cargo:directory={}", directory.display());
    println!("cargo:rustc-link-search=native={}", directory.display());
    println!("cargo:rustc-link-lib=static=type_formula");
    if !archive.exists() {
        println!(
            "cargo:warning=there is no {}; the command that makes it, \
             run in the top folder of the repository, is: sh tools/build.sh type_formula",
            archive.display()
        );
    }
}
