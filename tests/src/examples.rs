//! Examples and edges of document 01 with their answers.

use std::ops::Range;

use crate::reference::{encode_file, encode_node, File, Node};

/// An example of document 01: its bytes, m, n, and the part of each node.
pub struct Example {
    pub bytes: Vec<u8>,
    pub relations: u8,
    pub nodes: u8,
    pub parts: Vec<Range<usize>>,
}

/// An input with its answer: 0 if accepted, else the first refusal.
pub struct Case {
    pub name: &'static str,
    pub bytes: Vec<u8>,
    pub answer: u8,
}

/// The bytes of a text of hexadecimal pairs.
pub fn from_hexadecimal(text: &str) -> Vec<u8> {
    text.split_whitespace()
        .map(|pair| u8::from_str_radix(pair, 16).expect("a hexadecimal pair"))
        .collect()
}

/// The bytes as hexadecimal pairs.
pub fn to_hexadecimal(bytes: &[u8]) -> String {
    let pairs: Vec<String> = bytes.iter().map(|byte| format!("{byte:02x}")).collect();
    pairs.join(" ")
}

/// E1, selection {2,3} of (renaming 1 into 2 of r0, union r1) join r2.
pub fn e1() -> Example {
    Example {
        bytes: include_bytes!("../../examples/e1").to_vec(),
        relations: 3,
        nodes: 7,
        parts: vec![2..4, 4..8, 8..10, 10..14, 14..16, 16..20, 20..25],
    }
}

/// The nodes of E1.
pub fn e1_nodes() -> Vec<Node> {
    vec![
        Node::Relation { relation: 0 },
        Node::Renaming {
            operand: 0,
            old: 1,
            new: 2,
        },
        Node::Relation { relation: 1 },
        Node::Union { left: 1, right: 2 },
        Node::Relation { relation: 2 },
        Node::NaturalJoin { left: 3, right: 4 },
        Node::Selection {
            operand: 5,
            set: 0b1100,
        },
    ]
}

/// The nodes of E10, selection {1} of (r0 join r1), join ((r0 product r2) minus r3).
pub fn e10_nodes() -> Vec<Node> {
    vec![
        Node::Relation { relation: 0 },
        Node::Relation { relation: 1 },
        Node::NaturalJoin { left: 0, right: 1 },
        Node::Selection {
            operand: 2,
            set: 0b10,
        },
        Node::Relation { relation: 2 },
        Node::Product { left: 0, right: 4 },
        Node::Relation { relation: 3 },
        Node::Difference { left: 5, right: 6 },
        Node::NaturalJoin { left: 3, right: 7 },
    ]
}

/// E10, encoded.
pub fn e10() -> Example {
    Example {
        bytes: encode_file(4, &e10_nodes()),
        relations: 4,
        nodes: 9,
        parts: vec![
            2..4,
            4..6,
            6..10,
            10..15,
            15..17,
            17..21,
            21..23,
            23..27,
            27..31,
        ],
    }
}

/// Eight relations and their natural join, the last of 15 nodes.
pub fn join_of_eight() -> Vec<Node> {
    let mut nodes: Vec<Node> = (0..8).map(|relation| Node::Relation { relation }).collect();
    nodes.push(Node::NaturalJoin { left: 0, right: 1 });
    nodes.extend((2..8).map(|right| Node::NaturalJoin {
        left: right + 6,
        right,
    }));
    nodes
}

/// For each operator of two operands a file of 63 pairs of the node before, over
/// relation 7 of 8.
pub fn pairs_of_the_node_before() -> Vec<Vec<u8>> {
    let pairs: [fn(u8) -> Node; 4] = [
        |left| Node::Union { left, right: left },
        |left| Node::Difference { left, right: left },
        |left| Node::NaturalJoin { left, right: left },
        |left| Node::Product { left, right: left },
    ];
    let file = |pair: fn(u8) -> Node| {
        let first = Node::Relation { relation: 7 };
        let nodes: Vec<Node> = [first].into_iter().chain((0..63).map(pair)).collect();
        encode_file(8, &nodes)
    };
    pairs.into_iter().map(file).collect()
}

/// Each node with this number, of attributes 1 and 2.
fn every_node(relations: u8, number: u8) -> Vec<Node> {
    let mut nodes: Vec<Node> = (0..relations)
        .map(|relation| Node::Relation { relation })
        .collect();
    for left in 0..number {
        for right in 0..number {
            nodes.extend([
                Node::Union { left, right },
                Node::Difference { left, right },
                Node::NaturalJoin { left, right },
                Node::Product { left, right },
            ]);
        }
        let operand = left;
        for set in [0, 2, 4, 6] {
            nodes.push(Node::Selection { operand, set });
            nodes.push(Node::Projection { operand, set });
        }
        for old in [1, 2] {
            nodes.push(Node::ProjectingOut { operand, old });
            nodes.extend([1, 2].map(|new| Node::Renaming { operand, old, new }));
        }
    }
    nodes
}

/// Every file with m 1 or 2, three nodes, and attributes 1 and 2.
pub fn smallest_files() -> Vec<Vec<u8>> {
    let mut files = Vec::new();
    for relations in 1..=2 {
        for first in every_node(relations, 0) {
            for second in every_node(relations, 1) {
                for third in every_node(relations, 2) {
                    files.push(encode_file(relations, &[first, second, third]));
                }
            }
        }
    }
    files
}

/// Every choice of three subsets of m relations.
pub fn three_subsets(relations: u8) -> impl Iterator<Item = [usize; 3]> {
    let all = (1 << relations) - 1;
    let choices = 0..1_usize << (3 * relations);
    choices.map(move |subsets| [0, 1, 2].map(|place| subsets >> (place * relations) & all))
}

/// Node numbers to ask: each node of an accepted file, or a few of a refused one;
/// n; and numbers that would be below n if cut to fewer bits.
pub fn node_numbers(bytes: &[u8], accepted: Option<&File>) -> Vec<usize> {
    let stated = usize::from(bytes.get(1).copied().unwrap_or(0));
    let mut numbers: Vec<usize> = match accepted {
        Some(file) => (0..file.nodes.len()).collect(),
        None => vec![0, 1, stated.saturating_sub(1)],
    };
    numbers.extend([stated, stated + 1, 63, 64, 255, 256, 257]);
    numbers.extend([1 << 16, 1 << 32, (1 << 32) + 1, 1 << 63, usize::MAX]);
    numbers
}

/// The length of the longest accepted file. Two bytes of counts; node 0 has no
/// earlier node and is a relation of two bytes; 63 nodes with a set have five each.
pub const LONGEST_ACCEPTED: usize = 2 + 2 + 63 * 5;

/// A file of the greatest accepted length; every node has the largest legal values.
pub fn longest_accepted() -> Vec<u8> {
    let mut nodes = vec![Node::Relation { relation: 7 }];
    nodes.extend((1..64).map(|number| Node::Projection {
        operand: number - 1,
        set: 0xfffe,
    }));
    encode_file(8, &nodes)
}

/// 64 nodes of five bytes each, 322 bytes in all; node 0 has no earlier node.
pub fn all_nodes_with_set() -> Vec<u8> {
    let mut bytes = vec![8, 64];
    for number in 0..64_u8 {
        let operand = number.saturating_sub(1);
        bytes.extend(encode_node(&Node::Selection { operand, set: 2 }));
    }
    bytes
}

/// A file of `count` relation nodes; the count may be outside its range.
fn relations_only(count: u8) -> Vec<u8> {
    encode_file(8, &vec![Node::Relation { relation: 7 }; usize::from(count)])
}

/// Inputs of known answers that are built rather than written out.
fn built_cases() -> Vec<Case> {
    let extended = |bytes: Vec<u8>, count: usize| [bytes, vec![0; count]].concat();
    let cases = [
        ("n 64", relations_only(64), 0),
        ("n 65", relations_only(65), 3),
        ("n 255", relations_only(255), 3),
        ("longest", longest_accepted(), 0),
        ("longest and 1 byte", extended(longest_accepted(), 1), 10),
        ("longest and 3 bytes", extended(longest_accepted(), 3), 10),
        ("longest and 4 bytes", extended(longest_accepted(), 4), 10),
        ("E1 and 256 bytes", extended(e1().bytes, 256), 10),
        ("E1 and 65,536 bytes", extended(e1().bytes, 65_536), 10),
        ("64 nodes with set", all_nodes_with_set(), 8),
        (
            "64 nodes with set, more",
            extended(all_nodes_with_set(), 1),
            8,
        ),
    ];
    cases
        .into_iter()
        .map(|(name, bytes, answer)| Case {
            name,
            bytes,
            answer,
        })
        .collect()
}

/// Inputs of known answers: name, bytes, 0 or the first refusal.
const WRITTEN_CASES: [(&str, &str, u8); 128] = [
    ("no bytes", "", 1),
    ("m alone", "01", 1),
    ("m 0 alone", "00", 1),
    ("m 9 alone", "09", 1),
    ("m 0", "00 01 01 00", 2),
    ("m 9", "09 01 01 00", 2),
    ("m 255", "ff 01 01 00", 2),
    ("m 0, n 0", "00 00", 2),
    ("m 9, n 65", "09 41", 2),
    ("m 1", "01 01 01 00", 0),
    ("m 8", "08 01 01 07", 0),
    ("n 0, no more bytes", "01 00", 3),
    ("n 0, more bytes", "01 00 01 00", 3),
    ("n 65, no more bytes", "01 41", 3),
    ("n 65, illegal map", "01 41 00", 3),
    ("n 128", "08 80 01 00", 3),
    ("no map byte", "01 01", 4),
    ("no map byte of node 1", "01 02 01 00", 4),
    ("relation node cut", "01 01 01", 4),
    ("pair node cut after map", "01 02 01 00 0e", 4),
    ("pair node cut after left", "01 02 01 00 0e 00", 4),
    ("pair node cut after right", "01 02 01 00 0e 00 00", 4),
    ("set node cut after map", "01 02 01 00 1a", 4),
    ("set node cut after operand", "01 02 01 00 1a 00", 4),
    ("set node cut after code", "01 02 01 00 1a 00 05", 4),
    ("set node cut within set", "01 02 01 00 1a 00 05 02", 4),
    ("renaming cut after map", "01 02 01 00 62", 4),
    ("renaming cut after operand", "01 02 01 00 62 00", 4),
    ("renaming cut after old", "01 02 01 00 62 00 01", 4),
    ("projecting out cut after map", "01 02 01 00 22", 4),
    ("projecting out cut after operand", "01 02 01 00 22 00", 4),
    ("pair node cut, left not earlier", "01 02 01 00 0e 01", 4),
    ("pair node cut, both not earlier", "01 02 01 00 0e 01 01", 4),
    ("set node cut, operand not earlier", "01 02 01 00 1a 01", 4),
    ("set node cut, wrong code", "01 02 01 00 1a 00 01", 4),
    (
        "set node cut, all fields wrong",
        "01 02 01 00 1a 01 01 01",
        4,
    ),
    ("renaming cut, old 0", "01 02 01 00 62 00 00", 4),
    (
        "projecting out cut, operand not earlier",
        "01 02 01 00 22 01",
        4,
    ),
    ("map 0 at the end", "01 01 00", 5),
    ("map 2 at the end", "01 01 02", 5),
    ("map 255 at the end", "01 01 ff", 5),
    ("map 127 at the end", "01 01 7f", 5),
    ("map 129, the relation's with bit 7", "01 01 81 00", 5),
    ("map 0", "01 01 00 00", 5),
    ("map 3", "01 01 03 00 00", 5),
    ("map 6, pair without code", "01 02 01 00 06 00 00", 5),
    ("map 10, set without set", "01 02 01 00 0a 00 05", 5),
    (
        "map 15, pair with relation",
        "01 02 01 00 0f 00 00 00 01",
        5,
    ),
    ("map 18, set without code", "01 02 01 00 12 00 02 00", 5),
    ("map 24, set without operand", "01 02 01 00 18 05 02 00", 5),
    ("map 30, pair and set", "01 02 01 00 1e 00 00 01 02 00", 5),
    ("map 66, new without old", "01 02 01 00 42 00 01", 5),
    (
        "map 96, renaming without operand",
        "01 02 01 00 60 01 02",
        5,
    ),
    ("map 142, pair with bit 7", "01 02 01 00 8e 00 00 01", 5),
    ("map 154, set with bit 7", "01 02 01 00 9a 00 05 02 00", 5),
    (
        "map 162, projecting out with bit 7",
        "01 02 01 00 a2 00 01",
        5,
    ),
    ("map 226, renaming with bit 7", "01 02 01 00 e2 00 01 02", 5),
    ("illegal map of node 1 at the end", "01 02 01 00 00", 5),
    ("node 0 illegal map, node 1 missing", "01 02 00", 5),
    ("pair code 0", "01 02 01 00 0e 00 00 00", 6),
    ("pair code 1", "01 02 01 00 0e 00 00 01", 0),
    ("pair code 2", "01 02 01 00 0e 00 00 02", 0),
    ("pair code 3", "01 02 01 00 0e 00 00 03", 0),
    ("pair code 4", "01 02 01 00 0e 00 00 04", 0),
    ("pair code 5", "01 02 01 00 0e 00 00 05", 6),
    ("pair code 6", "01 02 01 00 0e 00 00 06", 6),
    ("pair code 255", "01 02 01 00 0e 00 00 ff", 6),
    ("set code 0", "01 02 01 00 1a 00 00 02 00", 6),
    ("set code 1", "01 02 01 00 1a 00 01 02 00", 6),
    ("set code 4", "01 02 01 00 1a 00 04 02 00", 6),
    ("set code 5", "01 02 01 00 1a 00 05 02 00", 0),
    ("set code 6", "01 02 01 00 1a 00 06 02 00", 0),
    ("set code 7", "01 02 01 00 1a 00 07 02 00", 6),
    ("set code 255", "01 02 01 00 1a 00 ff 02 00", 6),
    (
        "set code wrong and bit 0 in the set",
        "01 02 01 00 1a 00 07 01 00",
        6,
    ),
    ("m 1, relation 1", "01 01 01 01", 7),
    ("m 3, relation 2", "03 01 01 02", 0),
    ("m 3, relation 3", "03 01 01 03", 7),
    ("m 8, relation 8", "08 01 01 08", 7),
    ("m 8, relation 255", "08 01 01 ff", 7),
    ("relation wrong at node 1", "02 02 01 01 01 02", 7),
    ("node 0 pair", "01 01 0e 00 00 01", 8),
    ("node 0 set", "01 01 1a 00 05 02 00", 8),
    ("node 0 renaming", "01 01 62 00 01 02", 8),
    ("node 0 projecting out", "01 01 22 00 01", 8),
    ("left its own number", "01 02 01 00 0e 01 00 01", 8),
    ("right its own number", "01 02 01 00 0e 00 01 01", 8),
    (
        "set operand its own number",
        "01 02 01 00 1a 01 05 02 00",
        8,
    ),
    (
        "renaming operand its own number",
        "01 02 01 00 62 01 01 02",
        8,
    ),
    (
        "projecting out operand its own number",
        "01 02 01 00 22 01 01",
        8,
    ),
    ("left a later node", "01 03 01 00 0e 02 00 01 01 00", 8),
    ("right 255", "01 02 01 00 0e 00 ff 01", 8),
    ("left and right wrong", "01 02 01 00 0e 01 01 01", 8),
    ("left and code wrong", "01 02 01 00 0e 01 00 00", 8),
    ("right and code wrong", "01 02 01 00 0e 00 01 00", 8),
    (
        "set operand and code wrong",
        "01 02 01 00 1a 01 00 02 00",
        8,
    ),
    (
        "set operand wrong and bit 0",
        "01 02 01 00 1a 01 05 01 00",
        8,
    ),
    (
        "renaming operand and old wrong",
        "01 02 01 00 62 01 00 02",
        8,
    ),
    (
        "renaming operand and new wrong",
        "01 02 01 00 62 01 01 10",
        8,
    ),
    (
        "projecting out operand and old wrong",
        "01 02 01 00 22 01 00",
        8,
    ),
    ("shared operands", "01 03 01 00 0e 00 00 04 0e 01 01 01", 0),
    ("empty set of selection", "01 02 01 00 1a 00 05 00 00", 0),
    ("empty set of projection", "01 02 01 00 1a 00 06 00 00", 0),
    ("full set", "01 02 01 00 1a 00 05 fe ff", 0),
    ("attribute 15 in a set", "01 02 01 00 1a 00 06 00 80", 0),
    (
        "attribute 8 in a set, bit 0 of the high byte",
        "01 02 01 00 1a 00 06 00 01",
        0,
    ),
    ("bit 0 alone in a set", "01 02 01 00 1a 00 05 01 00", 9),
    ("all bits in a set", "01 02 01 00 1a 00 06 ff ff", 9),
    ("renaming 1 into 15", "01 02 01 00 62 00 01 0f", 0),
    ("renaming 15 into 1", "01 02 01 00 62 00 0f 01", 0),
    ("renaming 1 into 1", "01 02 01 00 62 00 01 01", 0),
    ("renaming 0 into 1", "01 02 01 00 62 00 00 01", 9),
    ("renaming 16 into 1", "01 02 01 00 62 00 10 01", 9),
    ("renaming 1 into 0", "01 02 01 00 62 00 01 00", 9),
    ("renaming 1 into 16", "01 02 01 00 62 00 01 10", 9),
    ("renaming 255 into 255", "01 02 01 00 62 00 ff ff", 9),
    ("projecting out 0", "01 02 01 00 22 00 00", 9),
    ("projecting out 1", "01 02 01 00 22 00 01", 0),
    ("projecting out 15", "01 02 01 00 22 00 0f", 0),
    ("projecting out 16", "01 02 01 00 22 00 10", 9),
    ("one byte after the last node", "01 01 01 00 00", 10),
    ("a whole node after the last node", "01 01 01 00 01 00", 10),
    ("an illegal map after the last node", "01 01 01 00 ff", 10),
    ("wrong relation and a byte after", "01 01 01 01 00", 7),
    (
        "wrong set and a byte after",
        "01 02 01 00 1a 00 05 01 00 00",
        9,
    ),
    ("wrong relation, then an illegal map", "01 02 01 01 00", 7),
    ("wrong relation, then a missing node", "01 02 01 01", 7),
    ("wrong relation, then a cut node", "01 02 01 01 0e", 7),
];

/// All inputs of known answers.
pub fn cases() -> Vec<Case> {
    let written = WRITTEN_CASES.iter().map(|&(name, text, answer)| Case {
        name,
        bytes: from_hexadecimal(text),
        answer,
    });
    written.chain(built_cases()).collect()
}
