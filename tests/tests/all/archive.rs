//! What the archive needs from outside: two functions of the C library, and nothing more.

use std::path::Path;
use std::process::Command;

/// The names that are not defined in the archive, sorted.
fn undefined_names() -> Vec<String> {
    let archive = Path::new(env!("TYPE_FORMULA_ARCHIVE_DIRECTORY")).join("libtype_formula.a");
    let listed = Command::new("nm")
        .arg("--undefined-only")
        .arg(&archive)
        .output()
        .unwrap_or_else(|error| panic!("nm: {error}"));
    assert!(listed.status.success(), "nm {}", archive.display());
    let text = String::from_utf8(listed.stdout).expect("names");
    let marked = text.lines().filter_map(|line| line.trim().split_once(' '));
    let mut names: Vec<String> = marked.map(|(_, name)| name.trim().to_string()).collect();
    names.sort();
    names
}

#[test]
fn needs_two_functions_of_the_c_library() {
    assert_eq!(undefined_names(), ["memcpy", "memset"]);
}
