//! Gives the tests the directory of the archive, which the crate `type_formula` links.

use std::env;

fn main() {
    println!("cargo:rerun-if-changed=build.rs");
    let directory = env::var("DEP_TYPE_FORMULA_DIRECTORY").expect("given by type_formula");
    println!("cargo:rustc-env=TYPE_FORMULA_ARCHIVE_DIRECTORY={directory}");
}
