//! The greatest counts and the sizes of slices.

/// The most relations of an expression file.
pub const MOST_RELATIONS: usize = 8;

/// The most nodes of an expression file.
pub const MOST_NODES: usize = 64;

/// The least length of a result slice for an expression file; no accepted one is longer.
pub const LONGEST_FILE: usize = 322;

/// The most bytes of a query's text.
pub const LONGEST_QUERY: usize = 512;

/// The bytes of work space that a node's formula takes.
pub const FORMULA_SIZE: usize = 1_024;

/// The bytes of work space that are enough for every file: one formula for each of the most nodes.
pub const WORK_SIZE: usize = MOST_NODES * FORMULA_SIZE;

/// The least length of a result slice for an output record; no output record is longer.
pub const OUTPUT_SIZE: usize = 513;

/// The least length of a result slice for a schema; no schema is longer.
pub const SCHEMA_SIZE: usize = 4_104;

/// The least length of a result slice for an instantiation; no instantiation is longer.
pub const INSTANTIATION_SIZE: usize = 812;
