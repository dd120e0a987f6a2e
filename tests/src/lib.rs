//! The engine compared with another implementation of documents 01 and 02.

/// Calls of the engine alone.
pub mod alone;
/// Operations, their answers as numbers, and counts of them.
pub mod answer;
/// Edits of files with what Edit and Preview answer.
pub mod edit_examples;
/// The C functions of the engine, wrapped safely.
pub mod engine;
/// Examples and edges of document 01 with their answers.
pub mod examples;
/// Inputs at the limits of counts.
pub mod extreme_inputs;
/// Examples of document 01 with the formula, verdict, typings and listing of their last
/// node.
pub mod formula_examples;
/// An expression file with what the reference makes of it.
pub mod input;
/// Calls of Apply and Recover with their answers.
pub mod instantiation_examples;
/// Slices to lend to the engine.
pub mod lent;
/// A mixture of inputs of all operations.
pub mod mixture;
/// One call of an operation by the engine and by the reference, compared.
pub mod paired_calls;
/// Runs of the programs that the repository's build writes.
pub mod programs;
/// The pseudorandom number generator, and bytes.
pub mod pseudorandom;
/// Queries typed as text with their answers.
pub mod query_examples;
/// Queries as trees, with the texts and the files that a walk over the tree gives.
pub mod query_trees;
/// Random attributes and assignments.
pub mod random_assignments;
/// Random columns to choose a cover from, and files by how their relations are filled.
pub mod random_covers;
/// Random nodes and expression files.
pub mod random_expressions;
/// Random instantiations, alone and with files.
pub mod random_instantiations;
/// Random queries and texts.
pub mod random_queries;
/// The other implementation, written from documents 01 and 02.
pub mod reference;
/// Calls of the reference alone.
pub mod reference_calls;
/// Lengths of slices around the least.
pub mod slice_lengths;
/// The run of a test: paired calls, asserted and counted.
pub mod test_run;
/// Calls of Typing with their answers.
pub mod typing_examples;
