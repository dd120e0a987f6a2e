//! Edit and Preview: a file with one node exchanged for another.

use crate::c::{calls, UNTYPABLE};
use crate::{Expression, Refusal};

/// Edit: the edited file, in which the node's bytes are exchanged for a record. Refusals: 1 to 11
/// and 27, then those of the record.
///
/// A record is what [`record`](crate::record) and [`Node::record`](crate::Node::record) give of a
/// node; any bytes will do. It is judged last of all, as the node of this number: 4 to 9, and 10
/// where bytes follow the node in it. The other nodes keep their bytes and their numbers.
///
/// The expression is the part written of the result slice, which has at least
/// [`LONGEST_FILE`](crate::LONGEST_FILE) bytes. The slice stays beyond it, and whole after a
/// refusal.
///
/// ```
/// use type_formula::{edit, Node, Refusal, LONGEST_FILE};
///
/// // E1: σ{2,3}((ρ1/2(r0) ∪ r1) ⋈ r2), of which node 6 is the selection.
/// let file = [
///     3, 7, 0x01, 0, 0x62, 0, 1, 2, 0x01, 1, 0x0e, 1, 2, 1, 0x01, 2, 0x0e, 3, 4, 3, 0x1a, 5, 5,
///     0x0c, 0,
/// ];
/// let mut result = [0; LONGEST_FILE];
///
/// // Column 2 of the join is projected out in its place: two bytes fewer.
/// let node = Node::ProjectingOut { operand: 5, old: 2 };
/// let edited = edit(&file, 6, node.record().bytes(), &mut result)?;
/// assert_eq!(edited.node(6), Some(node));
/// assert_eq!(edited.bytes(), [&file[..20], &[0x22, 5, 2]].concat());
///
/// // As node 5 it would be its own operand. A byte too many is refused as well.
/// let given = edit(&file, 5, node.record().bytes(), &mut result);
/// assert_eq!(given, Err(Refusal::Operand));
/// let given = edit(&file, 6, &[0x22, 5, 2, 0], &mut result);
/// assert_eq!(given, Err(Refusal::NodesFollowed));
/// # Ok::<(), Refusal>(())
/// ```
pub fn edit<'a>(
    file: &[u8],
    node: usize,
    record: &[u8],
    result: &'a mut [u8],
) -> Result<Expression<'a>, Refusal> {
    let mut size = 0;
    match calls::edit(file, node, record, result, &mut size) {
        0 => Ok(Expression::of_accepted(&result[..size])),
        number => Err(Refusal::answered(number)),
    }
}

/// What [`preview`] answers.
#[derive(Clone, Copy, Debug, PartialEq, Eq)]
pub enum Preview {
    /// Some schema in which every relation has an attribute types the last node of the edited file.
    Typable {
        /// How many attributes the tables of [`verdict`](crate::verdict)'s witness would have in
        /// all. No such schema has fewer.
        memberships: u8,
    },
    /// No such schema types it.
    Untypable {
        /// The lowest special attribute whose column allows nothing, or 0 where each allows
        /// something and the relations cannot all get an attribute.
        attribute: u8,
    },
}

/// Preview: the verdict of the last node of the edited file, without a witness; no file is written.
/// Refusals: 1 to 12, then those of the record, as in [`edit`].
///
/// It answers what [`verdict`](crate::verdict) answers of the last node of the file that [`edit`]
/// writes, and leaves the same work space: unless it refuses, it fills the first 1,024 n bytes with
/// the formulas of the edited file, as [`formula`](crate::formula) does. Bytes beyond those stay,
/// and all stay after a refusal. A call takes up to 6,000 bytes of stack.
///
/// ```
/// use type_formula::*;
///
/// let (mut work, mut schema) = ([0; WORK_SIZE], [0; SCHEMA_SIZE]);
/// let (mut file, mut result) = ([0; LONGEST_FILE], [0; LONGEST_FILE]);
///
/// // π{2}(ρ1/2(r0) ∪ r1): the author has column 2 alone, and two columns in all are enough.
/// let query = parse_query(2, "P[2](N[1>2]r0+r1)", &mut file)?.bytes();
/// match verdict(query, 4, &mut work, &mut schema)? {
///     Verdict::Typable { witness, memberships } => {
///         assert_eq!(witness.to_string(), "r0(a1), r1(a2)");
///         assert_eq!(memberships, 2);
///     }
///     untypable => panic!("{untypable:?}"),
/// }
///
/// // The author tries a wider projection, {2,3}: two columns more, as both tables need 3.
/// let wider = Node::WithSet { op: SetOp::Projection, operand: 3, set: 0b1100 };
/// let given = preview(query, 4, wider.record().bytes(), &mut work);
/// assert_eq!(given, Ok(Preview::Typable { memberships: 4 }));
///
/// // With {1,2} there are no such tables, as column 1 is renamed.
/// let renamed = Node::WithSet { op: SetOp::Projection, operand: 3, set: 0b0110 };
/// let given = preview(query, 4, renamed.record().bytes(), &mut work);
/// assert_eq!(given, Ok(Preview::Untypable { attribute: 1 }));
///
/// // The author takes {2,3}. Verdict agrees with what was tried.
/// let edited = edit(query, 4, wider.record().bytes(), &mut result)?;
/// assert_eq!(edited.node(4), Some(wider));
/// match verdict(edited.bytes(), 4, &mut work, &mut schema)? {
///     Verdict::Typable { witness, memberships } => {
///         assert_eq!(witness.to_string(), "r0(a1, a3), r1(a2, a3)");
///         assert_eq!(memberships, 4);
///     }
///     untypable => panic!("{untypable:?}"),
/// }
/// # Ok::<(), Refusal>(())
/// ```
///
/// The formulas are those of the edited file, and are viewed with it:
///
/// ```
/// use type_formula::*;
///
/// let (mut work, mut result) = ([0; WORK_SIZE], [0; LONGEST_FILE]);
///
/// // E9: r0 ∪ π{1}(r1), and the projection exchanged for π{2}(r1).
/// let file = [2, 4, 0x01, 0, 0x01, 1, 0x1a, 1, 6, 2, 0, 0x0e, 0, 2, 1];
/// let record = [0x1a, 1, 6, 4, 0];
/// preview(&file, 2, &record, &mut work)?;
/// let formulas = Formulas::in_work_space(edit(&file, 2, &record, &mut result)?, &work)?;
/// let text = "node 3 typable\nr0:\nr1: 02\nout:\na2: 03+\n";
/// assert_eq!(formulas.last().to_string(), text);
/// # Ok::<(), Refusal>(())
/// ```
pub fn preview(
    file: &[u8],
    node: usize,
    record: &[u8],
    work: &mut [u8],
) -> Result<Preview, Refusal> {
    let (mut attribute, mut memberships) = (0, 0);
    match calls::preview(file, node, record, work, &mut attribute, &mut memberships) {
        0 => Ok(Preview::Typable { memberships }),
        UNTYPABLE => Ok(Preview::Untypable { attribute }),
        number => Err(Refusal::answered(number)),
    }
}
