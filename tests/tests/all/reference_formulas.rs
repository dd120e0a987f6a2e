//! The reference alone: typing rules, Formula, Verdict and the listing.

use type_formula_tests::examples::{cases, e1, from_hexadecimal, join_of_eight, three_subsets};
use type_formula_tests::formula_examples::{assert_e1_columns, formula_examples, FILLED_SCHEMA};
use type_formula_tests::pseudorandom::Random;
use type_formula_tests::reference::{
    allowed_subsets, assignment_of, encode_file, formula, holders, infer, is_allowed, is_output,
    listing, read_schema, type_of, verdict, Formula, Inferred, Node, Type, Verdict, COLUMNS,
    FORMULA_LENGTH, SCHEMA_LENGTH,
};

/// The ordinary attributes of the random assignments and of witnesses.
const ORDINARY: [u32; 10] = [16, 17, 18, 19, 20, 21, 22, 23, 300, 70_000];

/// How many cases of each kind come up at least.
const TYPED: u64 = 20_000;
const UNTYPED: u64 = 20_000;

/// The attributes that an assignment may use.
fn attributes() -> impl Iterator<Item = u32> {
    (1..=15).chain(ORDINARY)
}

/// The column of an attribute.
fn column_of(attribute: u32) -> usize {
    if attribute < 16 {
        attribute as usize
    } else {
        0
    }
}

/// The assignment in which each attribute is held by the relations of its subset.
fn assignment_by(relations: u8, mut subset: impl FnMut(u32) -> usize) -> Vec<Type> {
    assignment_of(
        relations,
        attributes().map(|attribute| (attribute, subset(attribute))),
    )
}

/// The type by the formula: the attributes in the output, or none if the holders of
/// some attribute are not allowed in its column.
fn type_by_formula(formula: &Formula, assignment: &[Type]) -> Option<Type> {
    let holders = |attribute| holders(assignment, attribute);
    attributes()
        .all(|attribute| is_allowed(formula, column_of(attribute), holders(attribute)))
        .then(|| {
            attributes()
                .filter(|&attribute| is_output(formula, column_of(attribute), holders(attribute)))
                .collect()
        })
}

/// Any subset; three times in four the empty one.
fn any_subset(random: &mut Random, relations: u8) -> usize {
    match random.below(4) {
        0 => random.below(1 << relations),
        _ => 0,
    }
}

/// An assignment of subsets that the formula allows, but for `others` attributes on
/// average, which have any subset.
fn likely_assignment(
    random: &mut Random,
    formula: &Formula,
    relations: u8,
    others: usize,
) -> Vec<Type> {
    assignment_by(relations, |attribute| {
        if random.below(15 + ORDINARY.len()) < others {
            random.below(1 << relations)
        } else {
            random.allowed_subset(formula, column_of(attribute))
        }
    })
}

/// Assignments of unrelated and of likely subsets.
fn assignments(random: &mut Random, formula: &Formula, relations: u8) -> Vec<Vec<Type>> {
    let unrelated = assignment_by(relations, |_| any_subset(random, relations));
    let likely =
        [0, 0, 2, 6, 12].map(|others| likely_assignment(random, formula, relations, others));
    [vec![unrelated], likely.into()].concat()
}

/// Files of every m, with n from 1 to 12 and one of 64 nodes for each m.
fn files(random: &mut Random) -> Vec<Inferred> {
    let mut files = Vec::new();
    for relations in 1..=8 {
        for count in (1..=12).flat_map(|count| [count; 8]).chain([64]) {
            files.push(random.accepted_file(relations, count));
            files.push(random.mild_file(relations, count));
        }
    }
    let infer = |bytes: &Vec<u8>| infer(bytes).expect("accepted");
    files.iter().map(infer).collect()
}

/// How many attributes the relations have in all.
fn memberships(assignment: &[Type]) -> u8 {
    assignment.iter().map(|set| set.len() as u8).sum()
}

/// Verdict with slices that are long enough, and the bytes written.
fn verdict_of(inferred: &Inferred, node: usize) -> (Verdict, Vec<u8>) {
    let mut work = vec![0; FORMULA_LENGTH * inferred.formulas.len()];
    let mut schema = vec![0; SCHEMA_LENGTH];
    let answer = inferred.verdict(node, &mut work, &mut schema);
    match answer {
        Verdict::Typable { length, .. } => schema.truncate(length),
        _ => schema.clear(),
    }
    (answer, schema)
}

#[test]
fn the_rules_type_a_node_exactly_when_each_subset_is_allowed() {
    let mut random = Random::new(30);
    let (mut typed, mut untyped) = (0, 0);
    for Inferred { file, formulas } in files(&mut random) {
        for (node, formula) in formulas.iter().enumerate() {
            for assignment in assignments(&mut random, formula, file.relations) {
                let by_rules = type_of(&file, node, &assignment);
                let by_formula = type_by_formula(formula, &assignment);
                assert_eq!(
                    by_rules, by_formula,
                    "node {node} of {file:?}, {assignment:?}"
                );
                match by_rules {
                    Some(_) => typed += 1,
                    None => untyped += 1,
                }
            }
        }
    }
    println!("{typed} typed, {untyped} untyped");
    assert!(typed >= TYPED && untyped >= UNTYPED);
}

/// Every assignment of attributes 1, 2 and 16 to at most two relations.
#[test]
fn every_small_assignment_is_typed_as_the_formula_says() {
    let mut random = Random::new(31);
    let (mut typed, mut untyped) = (0, 0);
    for _ in 0..600 {
        let (relations, count) = (random.between(1, 2), random.between(1, 7));
        let nodes = random.mild_nodes(relations, count);
        let nodes: Vec<Node> = nodes.iter().map(with_attributes_1_and_2).collect();
        let inferred = infer(&encode_file(relations, &nodes)).expect("accepted");
        let node = nodes.len() - 1;
        for [first, second, third] in three_subsets(relations) {
            let assignment = assignment_of(relations, [(1, first), (2, second), (16, third)]);
            let by_rules = type_of(&inferred.file, node, &assignment);
            let by_formula = type_by_formula(&inferred.formulas[node], &assignment);
            assert_eq!(by_rules, by_formula, "{nodes:?}, {assignment:?}");
            match by_rules {
                Some(_) => typed += 1,
                None => untyped += 1,
            }
        }
    }
    println!("{typed} typed, {untyped} untyped");
    assert!(typed >= 2_000 && untyped >= 2_000);
}

/// Assignments of attributes 1, 2, and 16 to 18, in which every relation has an attribute.
fn filled_assignments(relations: u8) -> Vec<Vec<Type>> {
    let all = 0..1 << relations;
    let mut assignments = Vec::new();
    for [first, second, third] in three_subsets(relations) {
        for fourth in all.clone().filter(|&s| s >= third) {
            for fifth in all.clone().filter(|&s| s >= fourth) {
                let ordinary = [(16, third), (17, fourth), (18, fifth)];
                let subsets = [(1, first), (2, second)].into_iter().chain(ordinary);
                assignments.push(assignment_of(relations, subsets));
            }
        }
    }
    assignments.retain(|sets| !sets.iter().any(Type::is_empty));
    assignments
}

/// Every small filled assignment that types a node has at least as many memberships as Verdict says,
/// and one has as many; none types an untypable node.
#[test]
fn no_small_filled_assignment_that_types_a_node_has_fewer_memberships_than_the_witness() {
    let mut random = Random::new(34);
    let all = [1, 2, 3].map(filled_assignments);
    let (mut typable, mut empty, mut with_ordinary) = (0, 0, 0);
    for round in 0..600 {
        let relations = random.between(1, 3);
        let nodes = match round % 2 {
            0 => random.tree_nodes(relations),
            _ => random.mild_nodes(relations, 6),
        };
        let nodes: Vec<Node> = nodes.iter().map(with_attributes_1_and_2).collect();
        let inferred = infer(&encode_file(relations, &nodes)).expect("accepted");
        let node = nodes.len() - 1;
        let types = |sets: &&Vec<Type>| type_of(&inferred.file, node, sets).is_some();
        let typed = all[usize::from(relations) - 1].iter().filter(types);
        let fewest = typed.map(|sets| memberships(sets)).min();
        match verdict_of(&inferred, node) {
            (Verdict::Typable { memberships, .. }, schema) => {
                assert_eq!(fewest, Some(memberships), "{nodes:?}");
                typable += 1;
                with_ordinary += u64::from(schema.len() > 2 * usize::from(relations));
            }
            (Verdict::Untypable { attribute }, _) => {
                assert_eq!(fewest, None, "{nodes:?}");
                empty += u64::from(attribute == 0);
            }
            (refused, _) => panic!("{refused:?}"),
        }
    }
    println!("{typable} typable, {with_ordinary} with ordinary attributes, {empty} not filled");
    assert!(typable >= 300 && with_ordinary >= 100 && empty >= 10);
}

/// The node with 1 for each odd and 2 for each even attribute.
fn with_attributes_1_and_2(node: &Node) -> Node {
    let one = |attribute: u8| 2 - attribute % 2;
    let all = |set: u16| {
        let odd = u16::from(set & 0xaaaa != 0);
        let even = u16::from(set & 0x5554 != 0);
        odd << 1 | even << 2
    };
    match *node {
        Node::Selection { operand, set } => Node::Selection {
            operand,
            set: all(set),
        },
        Node::Projection { operand, set } => Node::Projection {
            operand,
            set: all(set),
        },
        Node::Renaming { operand, old, new } => Node::Renaming {
            operand,
            old: one(old),
            new: one(new),
        },
        Node::ProjectingOut { operand, old } => Node::ProjectingOut {
            operand,
            old: one(old),
        },
        other => other,
    }
}

#[test]
fn a_witness_types_its_node_and_nothing_types_an_untypable_node() {
    let mut random = Random::new(32);
    let (mut typable, mut untypable) = (0, 0);
    for inferred in files(&mut random) {
        let Inferred { file, formulas } = &inferred;
        for (node, formula) in formulas.iter().enumerate() {
            let (answer, schema) = verdict_of(&inferred, node);
            if let Verdict::Untypable { attribute } = answer {
                let blocked = allowed_subsets(formula, usize::from(attribute)).is_empty();
                assert_eq!(blocked, attribute > 0);
                let assignments =
                    (0..8).flat_map(|_| assignments(&mut random, formula, file.relations));
                for assignment in assignments {
                    let is_typed = type_of(file, node, &assignment).is_some();
                    let is_empty = assignment.iter().any(Type::is_empty);
                    let is_right = !is_typed || !blocked && is_empty;
                    assert!(is_right, "node {node} of {file:?}, {assignment:?}");
                }
                untypable += 1;
            } else {
                let length = schema.len();
                let witness = read_schema(file.relations, &schema).expect("a schema");
                let memberships = memberships(&witness);
                let wanted = Verdict::Typable {
                    length,
                    memberships,
                };
                assert_eq!(answer, wanted);
                let by_rules = type_of(file, node, &witness);
                assert!(by_rules.is_some(), "node {node} of {file:?}");
                assert_eq!(by_rules, type_by_formula(formula, &witness));
                typable += 1;
            }
        }
    }
    println!("{typable} typable, {untypable} untypable");
    assert!(typable >= 1_000 && untypable >= 1_000);
}

#[test]
fn output_bits_are_allowed_and_bits_from_2_to_the_m_up_are_zero() {
    let mut random = Random::new(33);
    for Inferred { file, formulas } in files(&mut random) {
        for formula in &formulas {
            for column in 0..COLUMNS {
                for s in 0..256 {
                    let (allowed, output) = (
                        is_allowed(formula, column, s),
                        is_output(formula, column, s),
                    );
                    assert!(allowed || !output);
                    assert!(!allowed || s < 1 << file.relations);
                }
                assert!(column > 0 || is_allowed(formula, 0, 0));
            }
        }
    }
}

#[test]
fn examples_have_their_formulas_verdicts_and_listings() {
    for example in formula_examples() {
        let name = example.name;
        let bytes = example.bytes();
        let inferred = infer(&bytes).expect("accepted");
        assert_eq!(
            inferred.formulas[example.last()],
            example.formula(),
            "{name}"
        );
        let (answer, schema) = verdict_of(&inferred, example.last());
        let (wanted, witness) = match example.verdict {
            Ok((witness, memberships)) => {
                let witness = from_hexadecimal(witness);
                let length = witness.len();
                let typable = Verdict::Typable {
                    length,
                    memberships,
                };
                (typable, witness)
            }
            Err(attribute) => (Verdict::Untypable { attribute }, Vec::new()),
        };
        assert_eq!(answer, wanted, "{name}");
        assert_eq!(schema, witness, "{name}");
        assert_eq!(listing(&bytes), example.listing, "{name}");
    }
}

#[test]
fn e1_has_these_bytes() {
    let mut work = vec![0xaa; 7 * FORMULA_LENGTH];
    assert_eq!(formula(&e1().bytes, &mut work), 0);
    assert_e1_columns(&work);
}

/// E3 and E4: E1 with 4 in r2 too, and with 20 in r0 and r1, or in r0 only.
#[test]
fn e1_is_typed_by_the_rules_as_e3_and_e4_say() {
    let file = infer(&e1().bytes).expect("accepted").file;
    let filled = read_schema(3, &from_hexadecimal(FILLED_SCHEMA)).expect("a schema");
    assert_eq!(type_of(&file, 6, &filled), Some(Type::from([2, 3, 4])));
    let mut e4 = filled.clone();
    e4[0].insert(20);
    assert_eq!(type_of(&file, 6, &e4), None);
    let mut e3 = e4;
    e3[1].insert(20);
    assert_eq!(type_of(&file, 6, &e3), Some(Type::from([2, 3, 4, 20])));
}

#[test]
fn formula_and_verdict_are_refused_in_order() {
    let bytes = e1().bytes;
    let untouched = |slice: &[u8]| slice.iter().all(|&byte| byte == 0xaa);
    for (node, work_length, schema_length, number) in [
        (7, 0, 0, 11),
        (usize::MAX, 7_168, 4_104, 11),
        (6, 0, 0, 12),
        (6, 7_167, 4_104, 12),
        (6, 7_168, 4_103, 13),
        (0, 70_000, 0, 13),
    ] {
        let (mut work, mut schema) = (vec![0xaa; work_length], vec![0xaa; schema_length]);
        let answer = verdict(&bytes, node, &mut work, &mut schema);
        assert_eq!(answer, Verdict::Refused { number });
        assert!(untouched(&work) && untouched(&schema));
    }
    let mut work = vec![0xaa; 7_169];
    assert_eq!(formula(&bytes, &mut work[..7_167]), 12);
    assert!(untouched(&work));
    assert_eq!(formula(&bytes, &mut work), 0);
    let formulas = infer(&bytes).expect("accepted").formulas;
    assert_eq!(work, [&formulas.concat()[..], &[0xaa]].concat());
}

#[test]
fn a_refused_file_is_refused_first_of_all() {
    for case in cases().iter().filter(|case| case.answer != 0) {
        let number = case.answer;
        let refused = Verdict::Refused { number };
        assert_eq!(formula(&case.bytes, &mut []), number, "{}", case.name);
        assert_eq!(verdict(&case.bytes, 64, &mut [], &mut []), refused);
        assert_eq!(listing(&case.bytes), format!("refused {number}\n"));
    }
}

/// Each node is followed once for each column and subset, so shared operands do not
/// multiply the steps.
#[test]
fn sixty_three_pairs_of_the_node_before_end() {
    let mut nodes = vec![Node::Relation { relation: 7 }];
    nodes.extend((0..63).map(|number| Node::NaturalJoin {
        left: number,
        right: number,
    }));
    let inferred = infer(&encode_file(8, &nodes)).expect("accepted");
    assert!(inferred
        .formulas
        .iter()
        .all(|formula| formula == &inferred.formulas[0]));
    let empty = vec![Type::new(); 8];
    assert_eq!(type_of(&inferred.file, 63, &empty), Some(Type::new()));
}

#[test]
fn a_join_of_eight_relations_has_255_variables() {
    let text = listing(&encode_file(8, &join_of_eight()));
    let lines: Vec<&str> = text.lines().collect();
    assert_eq!(lines.len(), 10);
    assert_eq!(lines[0], "node 14 typable");
    assert_eq!(lines[9].split(' ').count(), 256);
    assert!(lines[8].starts_with("r7: 80 81 ") && lines[8].ends_with(" fe ff"));
}

#[test]
fn attributes_of_unused_nodes_are_listed() {
    let nodes = [
        Node::Relation { relation: 0 },
        Node::Selection {
            operand: 0,
            set: 0x8400,
        },
        Node::Relation { relation: 0 },
    ];
    let text = "node 2 typable\nr0: 01\nout: 01\na10: 00- 01+\na15: 00- 01+\n";
    assert_eq!(listing(&encode_file(1, &nodes)), text);
}
