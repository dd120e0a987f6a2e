//! Files, schemas, instantiations and queries that are measured.

use std::collections::HashSet;
use std::mem::discriminant;

use type_formula_tests::answer::{NO_TYPE, RESULT};
use type_formula_tests::examples::{e1, e10_nodes, e1_nodes, join_of_eight};
use type_formula_tests::pseudorandom::Random;
use type_formula_tests::query_examples::nested;
use type_formula_tests::query_trees::{relation, Query};
use type_formula_tests::reference::{
    assignment_of, encode_file, encode_schema, infer, record, recover, typing, untypable_attribute,
    witness, Node, Recover, Typing, FORMULA_LENGTH, INSTANTIATION_LENGTH, OUTPUT_LENGTH,
};

/// A file with a schema that types its last node, and the instantiation whose image the
/// schema is; both are empty where the last node is untypable, and of a query.
pub struct Setting {
    pub name: String,
    pub file: Vec<u8>,
    /// The text of a query, whose file it then is; else empty.
    pub text: Vec<u8>,
    pub last: usize,
    /// The node in the middle, and its record, which is exchanged for itself.
    pub middle: usize,
    pub record: Vec<u8>,
    pub schema: Vec<u8>,
    pub instantiation: Vec<u8>,
    /// The length of the output record.
    pub output_length: usize,
}

impl Setting {
    /// A file without a schema.
    fn of_file(name: impl Into<String>, file: Vec<u8>) -> Self {
        let count = usize::from(file[1]);
        let middle = count / 2;
        let part = record(&file, middle).expect("accepted");
        Setting {
            name: name.into(),
            last: count - 1,
            middle,
            record: file[part].to_vec(),
            file,
            text: Vec::new(),
            schema: Vec::new(),
            instantiation: Vec::new(),
            output_length: 0,
        }
    }

    fn new(name: impl Into<String>, file: Vec<u8>, schema: Vec<u8>) -> Self {
        let mut setting = Setting {
            schema,
            ..Setting::of_file(name, file)
        };
        let (file, last, schema) = (&setting.file, setting.last, &setting.schema);
        let mut work = vec![0; setting.work_length()];
        let (mut out, mut result) = (vec![0; OUTPUT_LENGTH], vec![0; INSTANTIATION_LENGTH]);
        let typing = typing(file, last, schema, &mut out);
        let recover = recover(file, last, schema, &mut work, &mut result);
        match (typing, recover) {
            (Typing::Typed { length: output }, Recover::Recovered { length }) => {
                setting.output_length = output;
                setting.instantiation = result[..length].to_vec();
            }
            _ => panic!("{}: not typed", setting.name),
        }
        setting
    }

    /// A file whose last node is untypable.
    fn untypable(name: &str, file: Vec<u8>) -> Self {
        let last = usize::from(file[1]) - 1;
        let formula = infer(&file).expect("accepted").formulas[last];
        let attribute = untypable_attribute(&formula, file[0]);
        assert!(attribute.is_some(), "{name}: typable");
        Setting::of_file(name, file)
    }

    /// A query for 1 to 8 relations.
    fn query(kind: &str, relations: u8, query: &Query) -> Self {
        let (text, count) = (query.text(), query.node_count());
        let name = format!("{} bytes, n {count}{kind}", text.len());
        Setting {
            text: text.into_bytes(),
            ..Setting::of_file(name, query.answer(relations).expect("a query"))
        }
    }

    /// What the operations answer: untypable where there is neither a schema nor a text.
    pub fn answer(&self) -> u8 {
        match self.schema.is_empty() && self.text.is_empty() {
            true => NO_TYPE,
            false => RESULT,
        }
    }

    pub fn work_length(&self) -> usize {
        FORMULA_LENGTH * (self.last + 1)
    }
}

/// E1 with three ordinary attributes, one for each of its type variables. The relations
/// have 10 columns in all: r0 has 1, 3, 20 and 21, r1 has 2, 3, 20 and 21, r2 has 20 and
/// 22.
pub fn e1_with_10_columns() -> Setting {
    let subsets = [(1, 1), (2, 2), (3, 3), (20, 7), (21, 3), (22, 4)];
    let schema = encode_schema(&assignment_of(3, subsets));
    Setting::new("n 7, m 3 (E1), 10 columns", e1().bytes, schema)
}

/// The nodes with the last one exchanged for one that asks for attribute 15 and for a type
/// without it: the search for the witness comes to the last column.
fn without_a_type(mut nodes: Vec<Node>) -> Vec<Node> {
    let operand = nodes.len() as u8 - 2;
    let (old, new) = (15, 15);
    *nodes.last_mut().expect("a node") = Node::Renaming { operand, old, new };
    nodes
}

/// E1 with an untypable last node.
pub fn untypable_of_7_nodes() -> Setting {
    let file = encode_file(3, &without_a_type(e1_nodes()));
    Setting::untypable("n 7, m 3, untypable", file)
}

/// 64 nodes over a join of eight relations, the last one untypable.
pub fn untypable_of_64_nodes() -> Setting {
    let file = encode_file(8, &without_a_type(nodes_over_a_join()));
    Setting::untypable("n 64, m 8, untypable", file)
}

/// Whether all nine cases of nodes occur.
fn has_all_cases(nodes: &[Node]) -> bool {
    let cases: HashSet<_> = nodes.iter().map(discriminant).collect();
    cases.len() == 9
}

/// The first seeded file with m 8, n 64 and all cases of nodes whose last node is typable
/// and not a relation, with its witness.
pub fn random_of_64_nodes() -> Setting {
    let mut random = Random::new(50);
    loop {
        let nodes = random.mild_nodes(8, 64);
        let file = encode_file(8, &nodes);
        let formula = infer(&file).expect("accepted").formulas[63];
        let last_is_relation = matches!(nodes[63], Node::Relation { .. });
        if has_all_cases(&nodes) && !last_is_relation {
            if let Some((schema, _)) = witness(&formula, 8) {
                return Setting::new("n 64, m 8, random nodes", file, schema);
            }
        }
    }
}

/// Eight relations, then 56 unions and differences.
fn nodes_of_unions(relation: impl Fn(u8) -> u8) -> Vec<Node> {
    let relations = (0..8).map(|number| Node::Relation {
        relation: relation(number),
    });
    let pairs = (8..64).map(|number| {
        let (left, right) = (number - 1, number % 8);
        match number % 2 {
            0 => Node::Union { left, right },
            _ => Node::Difference { left, right },
        }
    });
    relations.chain(pairs).collect()
}

/// Unions and differences of eight relations, whose columns agree in some bits and not in
/// others. The last node is typed where all relations have the same attributes.
pub fn unions_of_eight() -> Setting {
    let file = encode_file(8, &nodes_of_unions(|number| number));
    let schema = encode_schema(&assignment_of(8, [(1, 255)]));
    Setting::new("n 64, m 8, unions of r0 to r7", file, schema)
}

/// Unions and differences of one relation: the operands' columns agree in every bit.
pub fn unions_of_one() -> Setting {
    let file = encode_file(8, &nodes_of_unions(|_| 0));
    let schema = encode_schema(&assignment_of(8, [(1, 255)]));
    Setting::new("n 64, m 8, unions of r0", file, schema)
}

/// Seven nodes, from the given number on, over the node `before`, which has attribute 1 and
/// not 2; the last of them has the same type. The node `relation` has attribute 1 and no
/// attribute that `before` lacks.
fn seven_nodes(number: u8, before: u8, relation: u8, round: u8) -> [Node; 7] {
    let (operand, next) = (before, number + 1);
    let (left, right) = (number + 3, before);
    let pair = match round % 2 {
        0 => Node::Union { left, right },
        _ => Node::Difference { left, right },
    };
    let (old, set) = (2, 0b10);
    let (left, right) = (number + 4, number + 5);
    [
        Node::Selection { operand, set },
        Node::Renaming {
            operand: number,
            old: 1,
            new: 2,
        },
        Node::ProjectingOut { operand: next, old },
        Node::NaturalJoin {
            left: number + 2,
            right: relation,
        },
        pair,
        Node::Projection {
            operand: left,
            set: 0,
        },
        Node::Product { left, right },
    ]
}

/// The join of eight relations, then seven times seven nodes. All cases of nodes occur,
/// every node is in the last one's expression, and every subset is a type variable.
fn nodes_over_a_join() -> Vec<Node> {
    let mut nodes = join_of_eight();
    for round in 0..7 {
        let number = 15 + 7 * round;
        nodes.extend(seven_nodes(number, number - 1, round, round));
    }
    assert!(nodes.len() == 64 && has_all_cases(&nodes));
    nodes
}

/// Seven nodes, the first four as in E10: a selection of a join of two relations. Every
/// subset is a type variable.
fn nodes_over_two_relations() -> Vec<Node> {
    let mut nodes = e10_nodes();
    nodes.truncate(4);
    nodes.extend([
        Node::Renaming {
            operand: 3,
            old: 1,
            new: 2,
        },
        Node::ProjectingOut { operand: 4, old: 2 },
        Node::NaturalJoin { left: 5, right: 2 },
    ]);
    nodes
}

/// n nodes and m 8: a relation and seven nodes over it and the nodes before, again and
/// again. Relation 0 has all attributes: attribute 1 is in each relation, and 15 ordinary
/// attributes are in relation 0 and others.
pub fn of_nodes(count: u8) -> Setting {
    let mut nodes = Vec::new();
    for round in 0..count / 8 {
        let relation = 8 * round;
        nodes.push(Node::Relation {
            relation: round % 8,
        });
        let before = relation.saturating_sub(1);
        nodes.extend(seven_nodes(relation + 1, before, relation, round));
    }
    assert_eq!(nodes.len(), usize::from(count), "eight nodes each round");
    let ordinary = (0..15).map(|place| (16 + place, spread_subset(place) | 1));
    let schema = assignment_of(8, ordinary.chain([(1, 255)]));
    let name = format!("n {count}, m 8, 15 ordinary attributes");
    Setting::new(name, encode_file(8, &nodes), encode_schema(&schema))
}

/// How ordinary attributes are in the lists of an instantiation.
#[derive(Clone, Copy)]
pub enum Lists {
    /// Three lists.
    Three,
    /// One attribute in each list.
    OneInEach,
}

/// Subsets above 0 that differ for places below 255 and hold about half of the relations.
fn spread_subset(place: u32) -> usize {
    ((place + 1) * 0x9d) as usize % 256
}

/// 7 or 64 nodes and m 8: attribute 1 in each relation, and so many ordinary attributes.
pub fn of_attributes(nodes: usize, ordinary: u32, lists: Lists) -> Setting {
    let subset = |place: u32| match lists {
        Lists::Three => [0x01, 0x0f, 0xff][place as usize % 3],
        Lists::OneInEach => spread_subset(place),
    };
    let subsets = (0..ordinary).map(|place| (16 + place, subset(place)));
    let schema = assignment_of(8, subsets.chain([(1, 255)]));
    let nodes = match nodes {
        7 => nodes_over_two_relations(),
        _ => nodes_over_a_join(),
    };
    let lists = match lists {
        Lists::Three => "three lists",
        Lists::OneInEach => "one in each list",
    };
    let count = nodes.len();
    let name = format!("n {count}, m 8, {ordinary} ordinary attributes, {lists}");
    Setting::new(name, encode_file(8, &nodes), encode_schema(&schema))
}

/// A file with the witness of its last node; in `memberships` how many it has.
fn with_witness(name: &str, relations: u8, nodes: &[Node], memberships: u8) -> Setting {
    let file = encode_file(relations, nodes);
    let formula = infer(&file).expect("accepted").formulas[nodes.len() - 1];
    let (schema, counted) = witness(&formula, relations).expect("typable");
    assert_eq!(counted, memberships, "{name}");
    Setting::new(name, file, schema)
}

/// The nodes with a selection of these attributes of the last one.
fn selected(mut nodes: Vec<Node>, set: u16) -> Vec<Node> {
    let operand = nodes.len() as u8 - 1;
    nodes.push(Node::Selection { operand, set });
    nodes
}

/// A join of three relations: the fewest subsets of three attributes are those of r0, so that the
/// others must be sought.
pub fn cover_of_three() -> Setting {
    let mut nodes = join_of_eight()[..3].to_vec();
    nodes.push(Node::NaturalJoin { left: 0, right: 1 });
    nodes.push(Node::NaturalJoin { left: 3, right: 2 });
    let name = "n 6, m 3, three columns, not filled by the fewest subsets";
    with_witness(name, 3, &selected(nodes, 0b1110), 3)
}

/// A join of eight relations: three attributes and five variables fill them.
pub fn cover_of_eight() -> Setting {
    let nodes = selected(join_of_eight(), 0b1110);
    with_witness("n 16, m 8, three columns and variables", 8, &nodes, 8)
}

/// A selection of each of eight relations by an attribute of its own: the fewest subsets fill all.
pub fn filled_by_the_fewest() -> Setting {
    let mut nodes = Vec::new();
    for relation in 0..8 {
        nodes.push(Node::Relation { relation });
        let (operand, set) = (2 * relation, 2 << relation);
        nodes.push(Node::Selection { operand, set });
    }
    nodes.extend((0..7).map(|right| Node::NaturalJoin {
        left: if right == 0 { 1 } else { 15 + right },
        right: 2 * right + 3,
    }));
    with_witness("n 23, m 8, filled by the fewest subsets", 8, &nodes, 8)
}

/// Adds the join of two nodes and gives its number.
fn join(nodes: &mut Vec<Node>, left: u8, right: u8) -> u8 {
    nodes.push(Node::NaturalJoin { left, right });
    nodes.len() as u8 - 1
}

/// Fifteen joins of r0 with five to all of the other relations, no two of the same ones.
fn joins_with_r0(nodes: &mut Vec<Node>) -> Vec<u8> {
    let mut first: Vec<u8> = vec![0];
    for right in 1..8 {
        first.push(join(nodes, first[usize::from(right) - 1], right));
    }
    let mut last: Vec<u8> = vec![7];
    for left in (2..7).rev() {
        last.insert(0, join(nodes, left, last[0]));
    }
    let from = |relation: usize| last[relation - 2];
    let mut joins = vec![first[5], first[6], first[7]];
    joins.extend((1..7).map(|left_out| join(nodes, first[left_out - 1], from(left_out + 1))));
    joins.extend((1..6).map(|left_out| join(nodes, first[left_out - 1], from(left_out + 2))));
    joins.push(join(nodes, 0, from(4)));
    joins
}

/// Fifteen columns, no two the same, that each allow almost all subsets: attribute by attribute a
/// selection of a join with r0, and the join of all of them. The fewest subsets are those of r0.
pub fn cover_of_dense_columns() -> Setting {
    let mut nodes: Vec<Node> = (0..8).map(|relation| Node::Relation { relation }).collect();
    let joins = joins_with_r0(&mut nodes);
    let selections: Vec<u8> = (1..)
        .zip(joins)
        .map(|(attribute, operand)| {
            let set = 1 << attribute;
            nodes.push(Node::Selection { operand, set });
            nodes.len() as u8 - 1
        })
        .collect();
    let all = selections.into_iter();
    all.reduce(|left, right| join(&mut nodes, left, right));
    let name = format!("n {}, m 8, fifteen dense columns", nodes.len());
    with_witness(&name, 8, &nodes, 15)
}

/// E1 as text.
pub fn e1_query() -> Setting {
    let united = relation(0).renaming(1, 2).pair('+', relation(1));
    let query = united.pair('*', relation(2)).with_set('S', [2, 3]);
    Setting::query(" (E1)", 3, &query)
}

/// A query of 32 bytes for each four nodes: joins of selections of renamed relations.
pub fn query_of_length(length: u32) -> Setting {
    let selected = |round: u32, list: [u8; 8]| {
        let relation = relation(round as u8 % 8);
        relation.renaming(10, 11).with_set('S', list)
    };
    let mut query = selected(0, [1, 2, 3, 4, 5, 6, 8, 9]).projecting_out(9);
    for round in 1..length / 32 {
        query = query.pair('*', selected(round, [1, 2, 3, 4, 5, 6, 7, 10]));
    }
    assert_eq!(query.text().len(), length as usize, "32 bytes each round");
    Setting::query("", 8, &query)
}

/// A query of 512 bytes, most of which are lists.
pub fn query_of_lists() -> Setting {
    let mut query = relation(0).renaming(1, 2);
    query = query.projecting_out(10).projecting_out(11);
    for _ in 0..13 {
        query = query.with_set('S', 1..=15);
    }
    assert_eq!(query.text().len(), 512);
    Setting::query(", lists of 15", 8, &query)
}

/// 63 prefixes, one within the other.
pub fn query_of_prefixes() -> Setting {
    Setting::query(", 63 deep", 8, &nested(63))
}
