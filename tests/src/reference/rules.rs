//! The typing rules of document 01 (2.2), on sets of attributes.

use std::collections::BTreeSet;
use std::rc::Rc;

use super::{File, Node};

/// A set of attributes: 1 to 15 are special, 16 and above ordinary.
pub type Type = BTreeSet<u32>;

/// The assignment in which each of these attributes is held by exactly the relations
/// of its subset.
pub fn assignment_of(relations: u8, subsets: impl IntoIterator<Item = (u32, usize)>) -> Vec<Type> {
    let mut assignment = vec![Type::new(); usize::from(relations)];
    for (attribute, s) in subsets {
        for (relation, held) in assignment.iter_mut().enumerate() {
            if s >> relation & 1 == 1 {
                held.insert(attribute);
            }
        }
    }
    assignment
}

/// The relations that hold the attribute, as a subset.
pub fn holders(assignment: &[Type], attribute: u32) -> usize {
    let holds = |relation: &usize| assignment[*relation].contains(&attribute);
    let relations = (0..assignment.len()).filter(holds);
    relations.map(|relation| 1 << relation).sum()
}

/// The attributes of a set of a node.
fn members(set: u16) -> Type {
    (1..=15)
        .filter(|attribute| set >> attribute & 1 == 1)
        .collect()
}

/// The type without `old`.
fn without(whole: &Type, old: u8) -> Type {
    let mut rest = whole.clone();
    rest.remove(&u32::from(old));
    rest
}

/// The type with `new`.
fn with(mut rest: Type, new: u8) -> Type {
    rest.insert(u32::from(new));
    rest
}

/// The type of a node from those of the earlier nodes; none if a rule is broken in
/// its expression. A type that stays is shared and not copied.
fn type_of_node(
    node: &Node,
    assignment: &[Rc<Type>],
    earlier: &[Option<Rc<Type>>],
) -> Option<Rc<Type>> {
    let of = |operand: u8| earlier[usize::from(operand)].as_ref();
    let has = |operand: &Type, attribute: u8| operand.contains(&u32::from(attribute));
    match *node {
        Node::Relation { relation } => Some(assignment[usize::from(relation)].clone()),
        Node::Union { left, right } | Node::Difference { left, right } => {
            let (left, right) = (of(left)?, of(right)?);
            (left == right).then(|| left.clone())
        }
        Node::NaturalJoin { left, right } => Some(Rc::new(&**of(left)? | &**of(right)?)),
        Node::Product { left, right } => {
            let (left, right) = (of(left)?, of(right)?);
            left.is_disjoint(right).then(|| Rc::new(&**left | &**right))
        }
        Node::Selection { operand, set } => {
            let operand = of(operand)?;
            members(set).is_subset(operand).then(|| operand.clone())
        }
        Node::Projection { operand, set } => {
            let set = members(set);
            set.is_subset(of(operand)?).then(|| Rc::new(set))
        }
        Node::Renaming { operand, old, new } => {
            let operand = of(operand)?;
            (has(operand, old) && !has(operand, new))
                .then(|| Rc::new(with(without(operand, old), new)))
        }
        Node::ProjectingOut { operand, old } => {
            let operand = of(operand)?;
            has(operand, old).then(|| Rc::new(without(operand, old)))
        }
    }
}

/// The type that the rules give the node under the assignment, one set for each
/// relation; none if a rule is broken in its expression. Each node is evaluated once.
pub fn type_of(file: &File, node: usize, assignment: &[Type]) -> Option<Type> {
    let assignment: Vec<Rc<Type>> = assignment.iter().cloned().map(Rc::new).collect();
    let mut types = Vec::new();
    for earlier in &file.nodes[..=node] {
        let next = type_of_node(earlier, &assignment, &types);
        types.push(next);
    }
    types.pop().flatten().map(Rc::unwrap_or_clone)
}
