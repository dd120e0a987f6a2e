//! Inputs at the limits of counts.

use crate::examples::{join_of_eight, longest_accepted, pairs_of_the_node_before};
use crate::input::Input;
use crate::reference::{assignment_of, encode_file, read_file, Node, Type};
use crate::typing_examples::{in_each_of_eight, spread_over_eight};

/// The join of eight relations, all of whose subsets are allowed for every attribute.
pub fn join_input() -> Input {
    Input::new(encode_file(8, &join_of_eight()))
}

/// The join of eight relations, joined again up to 64 nodes.
pub fn join_of_64_nodes() -> Vec<u8> {
    let mut nodes = join_of_eight();
    nodes.extend((15..64).map(|right| Node::NaturalJoin {
        left: 14,
        right: right - 1,
    }));
    encode_file(8, &nodes)
}

/// A file of the greatest accepted length but that this node, from 1 on, is a relation: three
/// bytes shorter.
pub fn longest_but_for(number: u8) -> Vec<u8> {
    let mut file = read_file(&longest_accepted()).expect("accepted");
    file.nodes[usize::from(number)] = Node::Relation { relation: 7 };
    encode_file(8, &file.nodes)
}

/// Accepted files of eight relations and 64 nodes: joins, pairs of the node before, and nodes with
/// a set, all of them and all but one.
pub fn greatest_files() -> Vec<Vec<u8>> {
    let longest = [longest_accepted(), longest_but_for(1), longest_but_for(63)];
    let joins = [join_of_64_nodes()].into_iter();
    joins
        .chain(longest)
        .chain(pairs_of_the_node_before())
        .collect()
}

/// Assignments to eight relations at the limits: one ordinary attribute for each subset,
/// rising and falling, and such with 255 and 256 ordinary attributes in fewer subsets.
pub fn extreme_assignments() -> Vec<Vec<Type>> {
    let special = (1..16).map(|attribute| (attribute, 255));
    let rising = (1..256).map(|s| (15 + s as u32, s));
    let falling = (1..256).map(|s| (65_536 - s as u32, s));
    vec![
        in_each_of_eight(0..0),
        in_each_of_eight(1..16),
        in_each_of_eight(16..271),
        in_each_of_eight(1..271),
        in_each_of_eight(65_281..65_536),
        in_each_of_eight(65_535..65_536),
        spread_over_eight(1..271),
        spread_over_eight(16..271),
        spread_over_eight(16..272),
        spread_over_eight(16..2_056),
        spread_over_eight(65_280..65_536),
        assignment_of(8, rising.clone()),
        assignment_of(8, falling.clone()),
        assignment_of(8, special.clone().chain(rising)),
        assignment_of(8, special.chain(falling)),
    ]
}
