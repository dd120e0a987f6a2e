//! The operations on slices (FORMAT, section 7).

mod edits;
mod files;
mod formulas;
mod instantiations;
mod queries;
mod schemas;

pub use edits::{edit, preview, Preview};
pub use files::{accept, read_node, record};
pub use formulas::{formula, verdict, Verdict};
pub use instantiations::{apply, recover, Application, Recovery};
pub use queries::parse_query;
pub use schemas::{typing, Typing};
