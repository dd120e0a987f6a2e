//! Type formulas of relational-algebra expressions.
//!
//! An expression file holds the nodes of a query. The *type formula* of a node says under which
//! schemas the node is well typed, and which attributes its result then has. The operations are
//! compiled from proved code; this crate calls them with slices. It needs no allocator and no
//! standard library. "FORMAT" is `docs/FORMAT.md` of the repository: what the bytes are and what
//! the operations answer, clause by clause.
//!
//! Each operation gives its result, or the first [`Refusal`] that applies:
//!
//! | Operation | Takes | Gives |
//! |---|---|---|
//! | [`accept`] | a file | the [`Expression`], with its counts |
//! | [`record`] | a file, a node | the part of the file that holds the node |
//! | [`read_node`] | bytes | the [`Node`] at their front, and its length |
//! | [`formula`] | a file | the [`Formulas`] of all nodes, in the work space |
//! | [`verdict`] | a file, a node | a [`Schema`] that types the node, with the fewest columns but one at least in each table, and their number, or that there is none |
//! | [`typing`] | a file, a node, a schema | the output [`TypeRecord`], or untyped |
//! | [`apply`] | a file, a node, an instantiation | its [`Schema`] and output [`TypeRecord`] |
//! | [`recover`] | a file, a node, a schema | its [`Instantiation`], or untyped |
//! | [`parse_query`] | a query typed as text | its file, as an [`Expression`] |
//! | [`edit`] | a file, a node, a record | the file with the node exchanged, an [`Expression`] |
//! | [`preview`] | a file, a node, a record | the verdict of the last node of that file |
//!
//! Results are views of the part that was written of a lent slice: each gives its bytes, its parts
//! and its text. Inputs are built by [`ExpressionBuilder`], [`SchemaBuilder`] and
//! [`InstantiationBuilder`], or are bytes of any origin; a file is also what [`parse_query`] makes
//! of a query such as `S[2,3]((N[1>2]r0+r1)*r2)`, and a record is that of a [`Node`]
//! ([`Node::record`]).
//!
//! # A whole use
//!
//! A report author has the query σ{2,3}((ρ1/2(r0) ∪ r1) ⋈ r2). A database keeper has the tables
//! r0(a1, a3), r1(a2, a3) and r2(a4), and wants to add the column 20.
//!
//! ```
//! use type_formula::*;
//!
//! let mut query = ExpressionBuilder::new(3)?;
//! let r0 = query.relation(0)?;
//! let renamed = query.renaming(r0, 1, 2)?;
//! let r1 = query.relation(1)?;
//! let united = query.union(renamed, r1)?;
//! let r2 = query.relation(2)?;
//! let joined = query.join(united, r2)?;
//! let last = usize::from(query.selection(joined, [2, 3])?);
//! let file = query.expression()?.bytes();
//!
//! let mut work = [0; WORK_SIZE];
//! let (mut schema, mut out) = ([0; SCHEMA_SIZE], [0; OUTPUT_SIZE]);
//! let mut result = [0; INSTANTIATION_SIZE];
//!
//! // The formula: a line for each relation with its type variables, one for the output, and one
//! // for each attribute that the query names, with the subsets of the relations that may have it.
//! let text = "\
//! node 6 typable
//! r0: 03 07
//! r1: 03 07
//! r2: 04 07
//! out: 03 04 07
//! a1: 01- 05+
//! a2: 02+ 06+
//! a3: 03+ 04+ 07+
//! ";
//! assert_eq!(formula(file, &mut work)?.last().to_string(), text);
//!
//! // Under the keeper's schema the result has the columns 2 to 4.
//! let mut tables = SchemaBuilder::new();
//! for columns in [&[1, 3][..], &[2, 3], &[4]] {
//!     tables.relation(columns.iter().copied())?;
//! }
//! let tables = tables.schema()?.bytes();
//! match typing(file, last, tables, &mut out)? {
//!     Typing::Typed(output) => assert_eq!(output.to_string(), "(a2, a3, a4)"),
//!     Typing::Untyped => panic!("the query is typed"),
//! }
//!
//! // With column 20 in r0 alone the query would no longer be typed.
//! let mut wider = SchemaBuilder::new();
//! for columns in [&[1, 3, 20][..], &[2, 3], &[4]] {
//!     wider.relation(columns.iter().copied())?;
//! }
//! let wider = wider.schema()?.bytes();
//! assert_eq!(typing(file, last, wider, &mut out), Ok(Typing::Untyped));
//!
//! // The type variable 03, which r0 and r1 declare, can take the column.
//! let recovered = match recover(file, last, tables, &mut work, &mut result)? {
//!     Recovery::Recovered(instantiation) => instantiation,
//!     Recovery::Untyped => panic!("the query is typed"),
//! };
//! assert_eq!(recovered.to_string(), "a1: 01\na2: 02\na3: 03\na4: 04\n");
//! let mut with_20 = InstantiationBuilder::from(recovered);
//! with_20.add_to_list(0b011, 20)?;
//! let applied = apply(file, last, with_20.bytes(), &mut work, &mut schema, &mut out)?;
//! assert_eq!(applied.schema.to_string(), "r0(a1, a3, 20), r1(a2, a3, 20), r2(a4)");
//! assert_eq!(applied.output.to_string(), "(a2, a3, a4, 20)");
//! # Ok::<(), Refusal>(())
//! ```
//!
//! # What the boundary assumes
//!
//! The compiled functions assume that a pointer and the length beside it belong together, that no
//! pointer is null, and that what they write overlaps nothing else that they are lent. Slices and
//! exclusive references ensure all of it, so every function outside [`c`] is safe with any
//! arguments. The functions keep no pointer and have no global state; threads may call them at the
//! same time. Nothing is assumed about the bytes: any bytes get an answer.
//!
//! # The archive
//!
//! The compiled functions are in `libtype_formula.a`, which `sh tools/build.sh type_formula`, run in the
//! top folder of the repository, writes to `target/staticlib`. The environment variable
//! `TYPE_FORMULA_ARCHIVE_DIR` names another folder.
#![no_std]
#![deny(missing_docs)]
#![deny(unsafe_code)]

#[cfg(test)]
extern crate std;

/// The version of the crate, and of the header and the archive that belong to it.
pub const VERSION: &str = env!("CARGO_PKG_VERSION");

mod attributes;
mod builders;
pub mod c;
mod node;
mod operations;
mod refusal;
mod sizes;
mod views;

pub use builders::{ExpressionBuilder, InstantiationBuilder, SchemaBuilder};
pub use node::{BinaryOp, Node, NodeRecord, SetOp};
pub use operations::{
    accept, apply, edit, formula, parse_query, preview, read_node, record, recover, typing,
    verdict, Application, Preview, Recovery, Typing, Verdict,
};
pub use refusal::{Refusal, UnknownRefusal};
pub use sizes::{
    FORMULA_SIZE, INSTANTIATION_SIZE, LONGEST_FILE, LONGEST_QUERY, MOST_NODES, MOST_RELATIONS,
    OUTPUT_SIZE, SCHEMA_SIZE, WORK_SIZE,
};
pub use views::{
    Expression, Formula, Formulas, Instantiation, List, Lists, Nodes, Records, Schema, TypeRecord,
};
