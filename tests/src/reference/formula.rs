//! Formulas and the operation Formula, written plainly from document 01.

use super::{
    read_file, File, Node, NODE_NOT_BELOW_COUNT, RESULT_SLICE_TOO_SHORT, WORK_SPACE_TOO_SHORT,
};

/// Column 0 is for ordinary attributes, column i for attribute i.
pub const COLUMNS: usize = 16;
/// The bytes of a column: those of the allowed subsets, then those of the output.
pub const COLUMN_LENGTH: usize = 64;
/// Where the bytes of the output start in a column.
pub const OUTPUT_START: usize = 32;
/// The bytes of a formula.
pub const FORMULA_LENGTH: usize = COLUMNS * COLUMN_LENGTH;

/// A node's formula as it is stored.
pub type Formula = [u8; FORMULA_LENGTH];

/// Follows an attribute of the column, held by exactly the relations in s, through
/// one node: none if a rule is broken in its expression, else whether the result has
/// the attribute. `earlier` has the answers of the earlier nodes. Inlined, since a call for each
/// bit takes up to a quarter more instructions.
#[inline(always)]
fn follow_node(node: &Node, column: usize, s: usize, earlier: &[Option<bool>]) -> Option<bool> {
    let at = |operand: u8| earlier[usize::from(operand)];
    let is_listed = |set: u16| set >> column & 1 == 1;
    let is_column = |attribute: u8| usize::from(attribute) == column;
    match *node {
        Node::Relation { relation } => Some(s >> relation & 1 == 1),
        Node::Union { left, right } | Node::Difference { left, right } => {
            let (left, right) = (at(left)?, at(right)?);
            (left == right).then_some(left)
        }
        Node::NaturalJoin { left, right } => {
            let (left, right) = (at(left)?, at(right)?);
            Some(left || right)
        }
        Node::Product { left, right } => {
            let (left, right) = (at(left)?, at(right)?);
            (!(left && right)).then_some(left || right)
        }
        Node::Selection { operand, set } => {
            let has = at(operand)?;
            (has || !is_listed(set)).then_some(has)
        }
        Node::Projection { operand, set } => {
            let has = at(operand)?;
            (has || !is_listed(set)).then_some(is_listed(set))
        }
        Node::Renaming { operand, old, new } => {
            let has = at(operand)?;
            let breaks_rule = is_column(old) && !has || is_column(new) && has;
            (!breaks_rule).then_some(has && !is_column(old) || is_column(new))
        }
        Node::ProjectingOut { operand, old } => {
            let has = at(operand)?;
            (has || !is_column(old)).then_some(has && !is_column(old))
        }
    }
}

/// Follows the attribute through every node, each once.
fn follow(file: &File, column: usize, s: usize) -> Vec<Option<bool>> {
    let mut followed = Vec::with_capacity(file.nodes.len());
    for node in &file.nodes {
        let next = follow_node(node, column, s, &followed);
        followed.push(next);
    }
    followed
}

/// Lets bit s of the bytes stand.
pub(super) fn set_bit(bytes: &mut [u8], s: usize) {
    bytes[s / 8] |= 1 << (s % 8);
}

/// Whether bit s of the bytes stands.
pub(super) fn bit(bytes: &[u8], s: usize) -> bool {
    bytes[s / 8] >> (s % 8) & 1 == 1
}

/// The formula of each node, bit by bit.
pub fn formulas(file: &File) -> Vec<Formula> {
    let mut formulas = vec![[0; FORMULA_LENGTH]; file.nodes.len()];
    for column in 0..COLUMNS {
        let start = column * COLUMN_LENGTH;
        for s in 0..1 << file.relations {
            for (formula, followed) in formulas.iter_mut().zip(follow(file, column, s)) {
                if followed.is_some() {
                    set_bit(&mut formula[start..], s);
                }
                if followed == Some(true) {
                    set_bit(&mut formula[start + OUTPUT_START..], s);
                }
            }
        }
    }
    formulas
}

/// A byte of allowed bits, and the byte of output bits that goes with it.
pub type Pair = [u8; 2];

/// The pair of a node with two operands, the nodes 0 and 1, from the pairs of these, bit by bit:
/// neither the column nor the subset matters to such a node. Where a subset is not allowed, its
/// output bit says nothing.
pub fn pair_over(node: &Node, operands: [Pair; 2]) -> Pair {
    let mut made = [0; 2];
    for place in 0..8 {
        let at = |pair: Pair| bit(&pair, place).then(|| bit(&pair[1..], place));
        let followed = follow_node(node, 0, 0, &operands.map(at));
        if followed.is_some() {
            set_bit(&mut made, place);
        }
        if followed == Some(true) {
            set_bit(&mut made[1..], place);
        }
    }
    made
}

/// Whether s is allowed in the column.
pub fn is_allowed(formula: &Formula, column: usize, s: usize) -> bool {
    bit(&formula[column * COLUMN_LENGTH..], s)
}

/// Whether s puts an attribute of the column in the output.
pub fn is_output(formula: &Formula, column: usize, s: usize) -> bool {
    bit(&formula[column * COLUMN_LENGTH + OUTPUT_START..], s)
}

/// The subsets allowed in the column, rising.
pub fn allowed_subsets(formula: &Formula, column: usize) -> Vec<usize> {
    (0..256)
        .filter(|&s| is_allowed(formula, column, s))
        .collect()
}

/// The type variables: the subsets above 0 allowed in column 0, rising.
pub fn type_variables(formula: &Formula) -> Vec<usize> {
    let mut subsets = allowed_subsets(formula, 0);
    subsets.retain(|&s| s > 0);
    subsets
}

/// An accepted file with the formulas of its nodes.
pub struct Inferred {
    pub file: File,
    pub formulas: Vec<Formula>,
}

impl Inferred {
    /// Tests that the work space has at least 1,024 n bytes.
    fn check_work_space(&self, work: &[u8]) -> Result<(), u8> {
        if work.len() < FORMULA_LENGTH * self.formulas.len() {
            return Err(WORK_SPACE_TOO_SHORT);
        }
        Ok(())
    }

    /// The first refusal, one of 11 to 13, if there is one. Each result slice is given
    /// with the least length for its bytes.
    pub(super) fn check(
        &self,
        node: usize,
        work: &[u8],
        results: &[(&[u8], usize)],
    ) -> Result<(), u8> {
        if node >= self.formulas.len() {
            return Err(NODE_NOT_BELOW_COUNT);
        }
        self.check_work_space(work)?;
        if results.iter().any(|(slice, least)| slice.len() < *least) {
            return Err(RESULT_SLICE_TOO_SHORT);
        }
        Ok(())
    }

    /// Fills the first 1,024 n bytes of a work space that is long enough.
    pub(super) fn fill(&self, work: &mut [u8]) {
        for (place, formula) in work.chunks_exact_mut(FORMULA_LENGTH).zip(&self.formulas) {
            place.copy_from_slice(formula);
        }
    }

    /// Formula of this file: 0 or the refusal 12.
    pub fn formula(&self, work: &mut [u8]) -> u8 {
        match self.check_work_space(work) {
            Ok(()) => {
                self.fill(work);
                0
            }
            Err(refusal) => refusal,
        }
    }
}

/// The file with the formulas of its nodes, or its first refusal, one of 1 to 10.
pub fn infer(bytes: &[u8]) -> Result<Inferred, u8> {
    let file = read_file(bytes)?;
    let formulas = formulas(&file);
    Ok(Inferred { file, formulas })
}

/// Formula: fills the first 1,024 n bytes of the work space and gives 0, or gives the
/// first refusal, one of 1 to 10 and 12.
pub fn formula(bytes: &[u8], work: &mut [u8]) -> u8 {
    match infer(bytes) {
        Ok(inferred) => inferred.formula(work),
        Err(refusal) => refusal,
    }
}
