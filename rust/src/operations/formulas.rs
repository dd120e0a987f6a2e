//! Formula and Verdict.

use crate::c::{calls, UNTYPABLE};
use crate::{Expression, Formulas, Refusal, Schema};

/// Formula: fills the first 1,024 n bytes of the work space with the formulas of all nodes and
/// gives a view of them. Refusals: 1 to 10 and 12. Bytes beyond those stay, and all stay after a
/// refusal.
///
/// ```
/// use type_formula::{formula, Refusal, FORMULA_SIZE};
///
/// // E9: r0 ∪ π{1}(r1).
/// let file = [2, 4, 0x01, 0, 0x01, 1, 0x1a, 1, 6, 2, 0, 0x0e, 0, 2, 1];
/// let mut work = [0; 4 * FORMULA_SIZE];
/// let formulas = formula(&file, &mut work)?;
///
/// // An ordinary attribute is in no relation or in r1 alone (02), and never in the output.
/// // Attribute 1 is in both relations (03) and in the output.
/// let text = "node 3 typable\nr0:\nr1: 02\nout:\na1: 03+\n";
/// assert_eq!(formulas.last().to_string(), text);
///
/// assert_eq!(formula(&file, &mut work[1..]), Err(Refusal::WorkSpace));
/// # Ok::<(), Refusal>(())
/// ```
pub fn formula<'a>(file: &'a [u8], work: &'a mut [u8]) -> Result<Formulas<'a>, Refusal> {
    match calls::formula(file, work) {
        0 => Formulas::in_work_space(Expression::of_accepted(file), work),
        number => Err(Refusal::answered(number)),
    }
}

/// What [`verdict`] answers.
#[derive(Clone, Copy, Debug, PartialEq, Eq)]
pub enum Verdict<'a> {
    /// Some schema in which every relation has an attribute types the node.
    Typable {
        /// The witness, which is the part written of the schema slice.
        witness: Schema<'a>,
        /// How many attributes its tables have in all. No such schema has fewer.
        memberships: u8,
    },
    /// No such schema types the node.
    Untypable {
        /// The lowest special attribute whose column allows nothing, or 0 where each allows
        /// something and the relations cannot all get an attribute.
        attribute: u8,
    },
}

/// Verdict: whether some schema types the node, of those in which every relation has an attribute.
/// The witness is one with the fewest memberships: load it as an empty database, and no table lacks
/// a column, and there is none that can be spared. Refusals: 1 to 13.
///
/// The witness may have ordinary attributes, from 16 on: each is in the relations of a type
/// variable, in rising order of these. Of several schemas with as few memberships it is the one
/// with the lower subset at the first of attributes 1 to 15 that differs, and then the one whose
/// list of variables is lower at the first difference.
///
/// Unless it refuses, it fills the work space as [`formula`] does. The schema slice stays beyond
/// the witness, and whole where there is none. A call takes up to 6,000 bytes of
/// stack.
///
/// ```
/// use type_formula::{verdict, Refusal, Verdict, SCHEMA_SIZE, WORK_SIZE};
///
/// let (mut work, mut schema) = ([0; WORK_SIZE], [0; SCHEMA_SIZE]);
///
/// // E1: σ{2,3}((ρ1/2(r0) ∪ r1) ⋈ r2). Attribute 3 is needed in r2 alone, or in r0 and r1.
/// let query = [
///     3, 7, 0x01, 0, 0x62, 0, 1, 2, 0x01, 1, 0x0e, 1, 2, 1, 0x01, 2, 0x0e, 3, 4, 3, 0x1a, 5, 5,
///     0x0c, 0,
/// ];
/// match verdict(&query, 6, &mut work, &mut schema)? {
///     Verdict::Typable { witness, memberships } => {
///         assert_eq!(witness.to_string(), "r0(a1), r1(a2), r2(a3)");
///         assert_eq!(memberships, 3);
///     }
///     untypable => panic!("{untypable:?}"),
/// }
///
/// // σ{1}(r0) ⋈ r1. Attribute 1 is needed in r0; r1 gets an ordinary attribute.
/// let join = [2, 4, 0x01, 0, 0x1a, 0, 5, 2, 0, 0x01, 1, 0x0e, 1, 2, 3];
/// match verdict(&join, 3, &mut work, &mut schema)? {
///     Verdict::Typable { witness, memberships } => {
///         assert_eq!(witness.to_string(), "r0(a1), r1(16)");
///         assert_eq!(memberships, 2);
///     }
///     untypable => panic!("{untypable:?}"),
/// }
///
/// // E6: attribute 1 of r0 renamed into 1.
/// let renaming = [1, 2, 0x01, 0, 0x62, 0, 1, 1];
/// let given = verdict(&renaming, 1, &mut work, &mut schema);
/// assert_eq!(given, Ok(Verdict::Untypable { attribute: 1 }));
///
/// // E7: r0 × r0. No attribute may be in r0, which would then be empty.
/// let product = [1, 2, 0x01, 0, 0x0e, 0, 0, 4];
/// let given = verdict(&product, 1, &mut work, &mut schema);
/// assert_eq!(given, Ok(Verdict::Untypable { attribute: 0 }));
/// # Ok::<(), Refusal>(())
/// ```
pub fn verdict<'a>(
    file: &[u8],
    node: usize,
    work: &mut [u8],
    schema: &'a mut [u8],
) -> Result<Verdict<'a>, Refusal> {
    let (mut value, mut memberships) = (0, 0);
    match calls::verdict(file, node, work, schema, &mut value, &mut memberships) {
        0 => Ok(Verdict::Typable {
            witness: Schema::of_read(file[0], &schema[..value]),
            memberships,
        }),
        UNTYPABLE => Ok(Verdict::Untypable {
            attribute: value as u8,
        }),
        number => Err(Refusal::answered(number)),
    }
}
