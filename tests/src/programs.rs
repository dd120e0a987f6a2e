//! Runs of the programs that the repository's build writes.

use std::env;
use std::ffi::OsStr;
use std::io::{ErrorKind, Write};
use std::path::PathBuf;
use std::process::{Command, Stdio};

/// The environment variable for the directory of the programs.
const DIRECTORY_VARIABLE: &str = "TYPE_FORMULA_PROGRAM_DIR";

/// The path of a program: in the directory of the environment variable, else where the build of
/// the repository puts it.
fn path_of(name: &str) -> PathBuf {
    let directory = match env::var_os(DIRECTORY_VARIABLE) {
        Some(directory) => PathBuf::from(directory),
        None => PathBuf::from(env!("CARGO_MANIFEST_DIR")).join("../target/bin"),
    };
    directory.join(name)
}

/// Runs a program on these bytes as its standard input and gives what it writes to standard
/// output. The program may end before it has read all.
pub fn run(name: &str, input: &[u8]) -> Vec<u8> {
    run_on(name, &[], input)
}

/// Runs a program with these arguments, without standard input, and gives what it writes to
/// standard output.
pub fn run_with(name: &str, arguments: &[&OsStr]) -> Vec<u8> {
    run_on(name, arguments, &[])
}

fn run_on(name: &str, arguments: &[&OsStr], input: &[u8]) -> Vec<u8> {
    let path = path_of(name);
    let mut program = Command::new(&path)
        .args(arguments)
        .stdin(Stdio::piped())
        .stdout(Stdio::piped())
        .spawn()
        .unwrap_or_else(|error| panic!("{}: {error}", path.display()));
    let mut standard_input = program.stdin.take().expect("piped");
    match standard_input.write_all(input) {
        Err(error) if error.kind() != ErrorKind::BrokenPipe => panic!("standard input: {error}"),
        _ => drop(standard_input),
    }
    let ended = program.wait_with_output().expect("standard output is read");
    assert!(ended.status.code().is_some(), "{}", ended.status);
    ended.stdout
}
