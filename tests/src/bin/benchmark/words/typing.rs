//! Typing: bit sets by the typing rules, node by node.

use type_formula_tests::reference::{Node, Typing, OUTPUT_LENGTH};

use super::buffer::{room, Buffer, Room};
use super::reader::accept_with;
use super::schema::{read_schema, write_record, Schema};
use super::sets::{are_disjoint, are_equal, relation_sets, union, words_for, Set};
use super::{check_node, check_result};

/// The types of the nodes so far.
struct Types<'a, const WORDS: usize> {
    /// The type of each node; of no meaning where it has none.
    sets: Buffer<'a, Set<WORDS>>,
    /// Bit i stands if node i has a type.
    typed: u64,
}

impl<const WORDS: usize> Types<'_, WORDS> {
    #[inline(always)]
    fn operand(&self, operand: u8) -> (&Set<WORDS>, bool) {
        let is_typed = self.typed >> operand & 1 == 1;
        (&self.sets[usize::from(operand)], is_typed)
    }

    /// Two operands, and whether both have a type.
    #[inline(always)]
    fn pair(&self, left: u8, right: u8) -> (&Set<WORDS>, &Set<WORDS>, bool) {
        let (left, has_left) = self.operand(left);
        let (right, has_right) = self.operand(right);
        (left, right, has_left & has_right)
    }

    /// The type of a renaming, given the bits of both attributes, and whether it has one.
    #[inline(always)]
    fn renamed(&self, operand: u8, old: u64, new: u64) -> (Set<WORDS>, bool) {
        let (operand, is_typed) = self.operand(operand);
        let holds = (operand[0] & old != 0) & (operand[0] & new == 0);
        let special = operand[0] & !old | new;
        (with_special(operand, special), is_typed & holds)
    }

    /// The type of a node by its rule, and whether it has one.
    #[inline(always)]
    fn by_rule(&self, node: Node, relations: &[Set<WORDS>; 8]) -> (Set<WORDS>, bool) {
        match node {
            Node::Relation { relation } => (relations[usize::from(relation & 7)], true),
            Node::Union { left, right } | Node::Difference { left, right } => {
                let (left, right, are_typed) = self.pair(left, right);
                (*left, are_typed & are_equal(left, right))
            }
            Node::NaturalJoin { left, right } => {
                let (left, right, are_typed) = self.pair(left, right);
                (union(left, right), are_typed)
            }
            Node::Product { left, right } => {
                let (left, right, are_typed) = self.pair(left, right);
                (union(left, right), are_typed & are_disjoint(left, right))
            }
            Node::Selection { operand, set } => {
                let (operand, is_typed) = self.operand(operand);
                (*operand, is_typed & (u64::from(set) & !operand[0] == 0))
            }
            Node::Projection { operand, set } => {
                let (operand, is_typed) = self.operand(operand);
                let set = u64::from(set);
                (of_special(set), is_typed & (set & !operand[0] == 0))
            }
            Node::Renaming { operand, old, new } => self.renamed(operand, 1 << old, 1 << new),
            Node::ProjectingOut { operand, old } => {
                let (operand, is_typed) = self.operand(operand);
                let rest = operand[0] & !(1 << old);
                (with_special(operand, rest), is_typed & (rest != operand[0]))
            }
        }
    }
}

/// A set of special attributes alone.
#[inline(always)]
fn of_special<const WORDS: usize>(first: u64) -> Set<WORDS> {
    with_special(&[0; WORDS], first)
}

/// The set with another first word, which has the special attributes.
#[inline(always)]
fn with_special<const WORDS: usize>(set: &Set<WORDS>, first: u64) -> Set<WORDS> {
    let mut changed = *set;
    changed[0] = first;
    changed
}

/// The type of the last of the nodes, if it has one.
#[inline(always)]
fn type_of<const WORDS: usize>(nodes: &[Node], relations: &[Set<WORDS>; 8]) -> Option<Set<WORDS>> {
    let mut room: Room<_, 64> = room();
    let mut types = Types {
        sets: Buffer::new(&mut room),
        typed: 0,
    };
    for (number, &node) in nodes.iter().enumerate() {
        let (set, is_typed) = types.by_rule(node, relations);
        types.sets.push(set);
        types.typed |= u64::from(is_typed) << number;
    }
    let last = nodes.len() - 1;
    (types.typed >> last & 1 == 1).then(|| types.sets[last])
}

/// Writes the output record of the last of the nodes and gives its length, if it has a
/// type. A type takes so many words.
fn typed<const WORDS: usize>(nodes: &[Node], schema: &Schema, out: &mut [u8]) -> Option<usize> {
    let relations = relation_sets::<WORDS>(&schema.maps, schema.entries);
    let set = type_of(nodes, &relations)?;
    Some(write_record(&set, schema.entries, out))
}

/// The length of the output record, none if the node has no type, or the first refusal.
#[inline(always)]
fn output(bytes: &[u8], node: usize, schema: &[u8], out: &mut [u8]) -> Result<Option<usize>, u8> {
    let mut node_room: Room<Node, 64> = room();
    let mut nodes = Buffer::new(&mut node_room);
    let file = accept_with(bytes, |node, _| nodes.push(node))?;
    check_node(&file, node)?;
    check_result(out, OUTPUT_LENGTH)?;
    let (mut first, mut second) = (room(), room());
    let schema = read_schema(file.relations, schema, [&mut first, &mut second])?;
    let nodes = &nodes[..=node];
    Ok(match words_for(schema.entries.len()) {
        1 => typed::<1>(nodes, &schema, out),
        2 => typed::<2>(nodes, &schema, out),
        3 => typed::<3>(nodes, &schema, out),
        4 => typed::<4>(nodes, &schema, out),
        _ => typed::<5>(nodes, &schema, out),
    })
}

/// Typing.
pub fn typing(bytes: &[u8], node: usize, schema: &[u8], out: &mut [u8]) -> Typing {
    match output(bytes, node, schema, out) {
        Ok(Some(length)) => Typing::Typed { length },
        Ok(None) => Typing::Untyped,
        Err(number) => Typing::Refused { number },
    }
}
