//! Queries typed as text.

use crate::c::calls;
use crate::{Expression, Refusal};

/// Parse a query: the expression file of a query that is typed as text, in a file of so many
/// relations. Refusals: 2, 7, 9, 13 and 22 to 24.
///
/// A text has no spaces and at most [`LONGEST_QUERY`](crate::LONGEST_QUERY) bytes:
///
/// | Text | Node |
/// |---|---|
/// | `r0` | a relation, by one digit |
/// | `(A+B)`, `(A-B)`, `(A*B)`, `(A#B)` | union, difference, natural join, product |
/// | `S[1,2]A`, `P[1,2]A` | selection, projection; the list rises and may be empty |
/// | `N[1>2]A` | renaming of attribute 1 into 2 |
/// | `D[1]A` | projecting out attribute 1 |
///
/// A and B are such texts again. Attributes are 1 to 15, without a zero before them. Nodes are
/// numbered as their text ends, operands before the node that uses them; a relation that is typed
/// twice is two nodes.
///
/// The expression is the part written of the file slice, which has at least
/// [`LONGEST_FILE`](crate::LONGEST_FILE) bytes. The slice stays beyond it, and whole after a
/// refusal. A call takes up to 160,000 bytes of stack, for a text of 512 opening parentheses: about
/// 300 for each operand that has begun.
///
/// ```
/// use type_formula::{formula, parse_query, Refusal, LONGEST_FILE, WORK_SIZE};
///
/// let (mut file, mut work) = ([0; LONGEST_FILE], [0; WORK_SIZE]);
///
/// // E1: σ{2,3}((ρ1/2(r0) ∪ r1) ⋈ r2).
/// let query = parse_query(3, "S[2,3]((N[1>2]r0+r1)*r2)", &mut file)?;
/// let nodes = "\
/// node 0: r0
/// node 1: renaming of a1 into a2 in node 0
/// node 2: r1
/// node 3: union of nodes 1 and 2
/// node 4: r2
/// node 5: natural join of nodes 3 and 4
/// node 6: selection {a2, a3} of node 5
/// ";
/// assert_eq!(query.to_string(), nodes);
///
/// let text = "\
/// node 6 typable
/// r0: 03 07
/// r1: 03 07
/// r2: 04 07
/// out: 03 04 07
/// a1: 01- 05+
/// a2: 02+ 06+
/// a3: 03+ 04+ 07+
/// ";
/// assert_eq!(formula(query.bytes(), &mut work)?.last().to_string(), text);
/// # Ok::<(), Refusal>(())
/// ```
///
/// A refusal says what is wrong with the text, and not where. The numbers of relations and
/// attributes are tested last, and of several wrong ones the leftmost counts:
///
/// ```
/// use type_formula::{parse_query, Refusal, LONGEST_FILE};
///
/// let mut file = [0; LONGEST_FILE];
/// let mut refused = |text| parse_query(3, text, &mut file).map(|_| ()).unwrap_err();
///
/// // The list does not rise.
/// assert_eq!(refused("S[3,2]r0"), Refusal::QuerySyntax);
/// let text = "the text is no query: not in the language (FORMAT 11.1)";
/// assert_eq!(refused("S[3,2]r0").to_string(), text);
///
/// // There are three relations, and special attributes up to 15.
/// assert_eq!(refused("(S[2,16]r0+r3)"), Refusal::Attribute);
/// assert_eq!(refused("(r3+S[2,16]r0)"), Refusal::RelationNumber);
/// let text = "the relation's number is not below the relation count (FORMAT 1.3)";
/// assert_eq!(refused("(r0+r3)").to_string(), text);
/// ```
pub fn parse_query(
    relations: u8,
    text: impl AsRef<[u8]>,
    file: &mut [u8],
) -> Result<Expression<'_>, Refusal> {
    let mut size = 0;
    match calls::parse_query(relations, text.as_ref(), file, &mut size) {
        0 => Ok(Expression::of_accepted(&file[..size])),
        number => Err(Refusal::answered(number)),
    }
}
