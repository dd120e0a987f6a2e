//! Times of Formula, Verdict, Edit, Preview, Typing, Apply, Recover and parsing a query, as
//! markdown tables: beside the same operation by the reference, the same written by hand for speed
//! (module `words`), and copies of the bytes that are written, by the C library and by a loop;
//! those of Preview beside Verdict of the same file and a copy of it; and those of the engine and
//! of the hand-written code as nodes, attributes and texts double. Edit and Preview exchange the
//! node in the middle of a file for itself.
//!
//!     benchmark
//!     benchmark once OPERATION SIZE COUNT [BY]
//!
//! The second calls one operation so many times and prints nothing, for a count of
//! instructions. SIZE is a number of nodes, 7, 8, 16, 32 or 64; for Verdict, Edit and Preview
//! 7untypable or 64untypable, fewest, where the fewest subsets fill all relations, and
//! coverofthree, coverofeight and coverofdense, where they do not; or one of two settings of 64
//! nodes and 255 ordinary attributes: 64x255 with three lists, 64x255each with one attribute in
//! each list. For ParseQuery it is a number of bytes, 24 (E1), 32, 64, 128, 256 or 512; 191deep for
//! 63 prefixes; or 512lists for lists of 15 attributes. BY is engine, reference, words (the
//! hand-written code), copy or copyloop.

mod calls;
mod checks;
mod measure;
mod once;
mod settings;
mod slices;
mod tables;
mod words;

use std::process::ExitCode;

fn main() -> ExitCode {
    let arguments: Vec<String> = std::env::args().skip(1).collect();
    let arguments: Vec<&str> = arguments.iter().map(String::as_str).collect();
    let is_understood = match arguments[..] {
        [] => {
            tables::print_all();
            true
        }
        ["once", operation, size, count] => once::run(operation, size, count, "engine").is_some(),
        ["once", operation, size, count, by] => once::run(operation, size, count, by).is_some(),
        _ => false,
    };
    if is_understood {
        return ExitCode::SUCCESS;
    }
    eprintln!("benchmark [once OPERATION SIZE COUNT [BY]]");
    ExitCode::from(2)
}
