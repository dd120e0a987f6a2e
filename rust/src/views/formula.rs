//! Formulas in the work space.

use core::fmt::{self, Display, Formatter};

use crate::attributes::{specials, LAST_SPECIAL};
use crate::{Expression, Refusal, FORMULA_SIZE, MOST_RELATIONS};

/// The bytes of a column: the allowed plane and then the output plane (FORMAT 3.5).
const COLUMN_SIZE: usize = 64;
/// The bytes of a plane.
const PLANE_SIZE: usize = 32;

/// The formulas of all nodes of a file, in the work space (FORMAT, section 3).
#[derive(Clone, Copy, Debug, PartialEq, Eq)]
pub struct Formulas<'a> {
    expression: Expression<'a>,
    bytes: &'a [u8],
}

impl<'a> Formulas<'a> {
    /// The view of a work space that an operation filled from this file. It is
    /// [`WorkSpace`](Refusal::WorkSpace) if the work space has fewer than 1,024 n bytes. Whether it
    /// was filled cannot be seen: other bytes give a view of them.
    ///
    /// ```
    /// use type_formula::*;
    ///
    /// // E6: attribute 1 of r0 renamed into 1.
    /// let file = [1, 2, 0x01, 0, 0x62, 0, 1, 1];
    /// let (mut work, mut schema) = ([0; WORK_SIZE], [0; SCHEMA_SIZE]);
    /// verdict(&file, 1, &mut work, &mut schema)?;
    /// let formulas = Formulas::in_work_space(accept(&file)?, &work)?;
    /// assert_eq!(formulas.last().untypable_attribute(), Some(1));
    /// # Ok::<(), Refusal>(())
    /// ```
    pub fn in_work_space(expression: Expression<'a>, work: &'a [u8]) -> Result<Self, Refusal> {
        let size = usize::from(expression.node_count()) * FORMULA_SIZE;
        match work.get(..size) {
            Some(bytes) => Ok(Formulas { expression, bytes }),
            None => Err(Refusal::WorkSpace),
        }
    }

    /// The file.
    pub fn expression(self) -> Expression<'a> {
        self.expression
    }

    /// The 1,024 n bytes.
    pub fn bytes(self) -> &'a [u8] {
        self.bytes
    }

    /// The formula of the node of this number, if it is below n.
    pub fn node(self, number: usize) -> Option<Formula<'a>> {
        let bytes = self.bytes.chunks_exact(FORMULA_SIZE).nth(number)?;
        Some(Formula {
            expression: self.expression,
            number,
            bytes,
        })
    }

    /// The formula of the last node.
    pub fn last(self) -> Formula<'a> {
        let last = usize::from(self.expression.node_count()) - 1;
        self.node(last).expect("there are n formulas")
    }
}

/// The formula of one node. A column is a number from 0, that of all ordinary attributes, to 15;
/// subsets of the relations are numbers, bit r for relation r.
///
/// Its text is that of the listing (FORMAT 7.15): for the last node the text that the program
/// `list_formula` prints, for another one the same lines of that node.
#[derive(Clone, Copy, Debug, PartialEq, Eq)]
pub struct Formula<'a> {
    expression: Expression<'a>,
    number: usize,
    bytes: &'a [u8],
}

/// Whether the bit of the subset stands in the plane.
fn stands(plane: &[u8], subset: u8) -> bool {
    plane[usize::from(subset / 8)] >> (subset % 8) & 1 == 1
}

impl<'a> Formula<'a> {
    /// The number of the node.
    pub fn number(self) -> usize {
        self.number
    }

    /// The 1,024 bytes.
    pub fn bytes(self) -> &'a [u8] {
        self.bytes
    }

    /// The two planes of a column, if there is one.
    fn planes(self, column: u8) -> Option<(&'a [u8], &'a [u8])> {
        let column = self.bytes.chunks_exact(COLUMN_SIZE).nth(column.into())?;
        Some(column.split_at(PLANE_SIZE))
    }

    /// Whether an attribute of this column may be in exactly the relations of the subset. There is
    /// no column above 15: it allows nothing.
    pub fn allows(self, column: u8, subset: u8) -> bool {
        self.planes(column)
            .is_some_and(|(allowed, _)| stands(allowed, subset))
    }

    /// Whether it may, and the node's type then has it.
    pub fn outputs(self, column: u8, subset: u8) -> bool {
        self.planes(column)
            .is_some_and(|(_, output)| stands(output, subset))
    }

    /// The subsets that the column allows, rising.
    pub fn allowed(self, column: u8) -> impl Iterator<Item = u8> + 'a {
        (0..=u8::MAX).filter(move |&subset| self.allows(column, subset))
    }

    /// The type variables: the subsets but for the empty one that column 0 allows, rising.
    pub fn type_variables(self) -> impl Iterator<Item = u8> + 'a {
        self.allowed(0).filter(|&subset| subset > 0)
    }

    /// Whether the relations can all get an attribute: the variables are given to all that declare
    /// one, and each special attribute to the relations of one subset that its column allows.
    fn can_be_filled(self) -> bool {
        let declared = self.type_variables().fold(0, |all, subset| all | subset);
        let mut reached = [false; 1 << MOST_RELATIONS];
        reached[usize::from(declared)] = true;
        for column in 1..=LAST_SPECIAL {
            let mut next = [false; 1 << MOST_RELATIONS];
            for filled in (0..=u8::MAX).filter(|&filled| reached[usize::from(filled)]) {
                for subset in self.allowed(column) {
                    next[usize::from(filled | subset)] = true;
                }
            }
            reached = next;
        }
        reached[(1 << self.expression.relation_count()) - 1]
    }

    /// The lowest special attribute whose column allows nothing; 0 where each allows something and
    /// the relations cannot all get an attribute. If there is none, the node is typable.
    pub fn untypable_attribute(self) -> Option<u8> {
        let blocked = (1..=LAST_SPECIAL).find(|&column| self.allowed(column).next().is_none());
        blocked.or_else(|| (!self.can_be_filled()).then_some(0))
    }

    /// Writes the type variables for which this holds, and ends the line.
    fn write_variables(self, f: &mut Formatter<'_>, is_listed: impl Fn(u8) -> bool) -> fmt::Result {
        for subset in self.type_variables().filter(|&subset| is_listed(subset)) {
            write!(f, " {subset:02x}")?;
        }
        writeln!(f)
    }

    /// Writes the line of a special attribute.
    fn write_attribute(self, f: &mut Formatter<'_>, attribute: u8) -> fmt::Result {
        write!(f, "a{attribute}:")?;
        for subset in self.allowed(attribute) {
            let sign = match self.outputs(attribute, subset) {
                true => '+',
                false => '-',
            };
            write!(f, " {subset:02x}{sign}")?;
        }
        writeln!(f)
    }
}

impl Display for Formula<'_> {
    fn fmt(&self, f: &mut Formatter<'_>) -> fmt::Result {
        let verdict = match self.untypable_attribute() {
            None => "typable",
            Some(_) => "untypable",
        };
        writeln!(f, "node {} {verdict}", self.number)?;
        for relation in 0..self.expression.relation_count() {
            write!(f, "r{relation}:")?;
            self.write_variables(f, |subset| subset >> relation & 1 == 1)?;
        }
        write!(f, "out:")?;
        self.write_variables(f, |subset| self.outputs(0, subset))?;
        for attribute in specials(self.expression.named()) {
            self.write_attribute(f, attribute as u8)?;
        }
        Ok(())
    }
}
