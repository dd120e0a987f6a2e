//! The engine against the reference: Formula and Verdict.

use type_formula_tests::answer::{Operation, NO_TYPE, RESULT};
use type_formula_tests::engine::{self, Found};
use type_formula_tests::examples::{
    cases, e1, from_hexadecimal, longest_accepted, pairs_of_the_node_before, smallest_files,
    to_hexadecimal,
};
use type_formula_tests::formula_examples::{assert_e1_columns, formula_examples, FormulaExample};
use type_formula_tests::pseudorandom::Random;
use type_formula_tests::reference::{
    allowed_subsets, infer, members, Inferred, COLUMNS, FORMULA_LENGTH, SCHEMA_LENGTH,
};
use type_formula_tests::test_run::{TestRun, FAR_TOO_LONG};

/// The least number of comparisons of each test.
const IN_EVERY_M_AND_N: u64 = 90_000;
const IN_SMALL_FILES: u64 = 150_000;
const IN_EVERY_NODE: u64 = 75_000;
const IN_TREES: u64 = 45_000;
const IN_ALL_SMALLEST_FILES: u64 = 10_000;
const IN_CASES: u64 = 40_000;
const IN_PREFIXES: u64 = 30_000;
const IN_DISTURBED_FILES: u64 = 100_000;

/// The intended number of comparisons in all.
const _: () = assert!(
    IN_EVERY_M_AND_N
        + IN_SMALL_FILES
        + IN_EVERY_NODE
        + IN_TREES
        + IN_ALL_SMALLEST_FILES
        + IN_CASES
        + IN_PREFIXES
        + IN_DISTURBED_FILES
        >= 200_000
);

/// A run with random slices and values before each call.
fn test_run() -> TestRun {
    TestRun::new(19)
}

/// Asserts that Verdict said typable and untypable at least so often.
fn assert_verdicts(run: &TestRun, typable: u64, untypable: u64) {
    run.assert_given(Operation::Verdict, [RESULT], typable);
    run.assert_given(Operation::Verdict, [NO_TYPE], untypable);
}

/// The numbers as they are lent.
const LENT: Found = Found {
    value: 77,
    memberships: 200,
};

/// Asserts an example's facts of the engine, without the reference.
fn assert_example(example: &FormulaExample) {
    let (name, bytes) = (example.name, example.bytes());
    let start = FORMULA_LENGTH * example.last();
    let wanted = example.formula();
    let mut work = vec![0x55; start + FORMULA_LENGTH];
    assert_eq!(engine::formula(&bytes, &mut work), 0, "{name}");
    assert!(work[start..] == wanted, "{name}");
    work.fill(0x55);
    let (mut schema, mut found) = (vec![0x55; SCHEMA_LENGTH], LENT);
    let answer = engine::verdict(&bytes, example.last(), &mut work, &mut schema, &mut found);
    assert!(work[start..] == wanted, "{name}");
    let Found { value, memberships } = found;
    match example.verdict {
        Ok((witness, count)) => {
            let witness = from_hexadecimal(witness);
            assert_eq!((answer, value), (0, witness.len()), "{name}");
            assert_eq!(memberships, count, "{name}");
            assert_eq!(schema[..value], witness, "{name}");
            assert!(schema[value..].iter().all(|&byte| byte == 0x55), "{name}");
        }
        Err(attribute) => {
            assert_eq!((answer, value), (255, usize::from(attribute)), "{name}");
            assert_eq!(memberships, LENT.memberships, "{name}");
            assert!(schema.iter().all(|&byte| byte == 0x55), "{name}");
        }
    }
}

#[test]
fn examples_have_their_formulas_and_verdicts() {
    for example in formula_examples() {
        assert_example(&example);
    }
}

#[test]
fn e1_has_these_bytes() {
    let mut work = vec![0x55; 7 * FORMULA_LENGTH];
    assert_eq!(engine::formula(&e1().bytes, &mut work), 0);
    assert_e1_columns(&work);
}

/// The order 10, 11, 12, 13, and that no slice changes.
#[test]
fn verdict_of_e1_is_refused_in_order() {
    let bytes = e1().bytes;
    let longer = [&bytes[..], &[0]].concat();
    for (file, node, work_length, schema_length, refusal) in [
        (&longer, 7, 0, 0, 10),
        (&bytes, 7, 0, 0, 11),
        (&bytes, usize::MAX, 7_168, 4_104, 11),
        (&bytes, 6, 0, 0, 12),
        (&bytes, 6, 7_167, 4_103, 12),
        (&bytes, 6, 7_167, 4_104, 12),
        (&bytes, 6, 7_168, 0, 13),
        (&bytes, 6, 7_168, 4_103, 13),
        (&bytes, 0, FAR_TOO_LONG, 4_103, 13),
    ] {
        let (mut work, mut schema) = (vec![0x55; work_length], vec![0x55; schema_length]);
        let mut found = LENT;
        let answer = engine::verdict(file, node, &mut work, &mut schema, &mut found);
        assert_eq!((answer, found), (refusal, LENT));
        assert!(work.iter().chain(&schema).all(|&byte| byte == 0x55));
    }
}

/// Formula takes no node number and no schema: 12 comes right after 10.
#[test]
fn formula_of_e1_is_refused_in_order() {
    let bytes = e1().bytes;
    let longer = [&bytes[..], &[0]].concat();
    for (file, work_length, refusal) in [(&longer, 0, 10), (&bytes, 0, 12), (&bytes, 7_167, 12)] {
        let mut work = vec![0x55; work_length];
        assert_eq!(engine::formula(file, &mut work), refusal);
        assert!(work.iter().all(|&byte| byte == 0x55));
    }
}

/// Slices of no bytes whose pointers lead nowhere.
#[test]
fn empty_slices_are_refused() {
    assert_eq!(engine::formula(&[], &mut []), 1);
    assert_eq!(engine::formula(&e1().bytes, &mut []), 12);
    let mut found = LENT;
    let mut verdict =
        |file: &[u8], work: &mut [u8]| engine::verdict(file, 0, work, &mut [], &mut found);
    assert_eq!(verdict(&[], &mut []), 1);
    assert_eq!(verdict(&e1().bytes, &mut []), 12);
    assert_eq!(verdict(&e1().bytes, &mut [0x55; 7_168]), 13);
    assert_eq!(found, LENT);
}

#[test]
fn random_accepted_files_of_every_m_and_n() {
    let mut random = Random::new(20);
    let mut run = test_run();
    for relations in 1..=8 {
        for count in 1..=64 {
            run.formula_and_verdict(&random.accepted_file(relations, count));
            run.formula_and_verdict(&random.mild_file(relations, count));
        }
    }
    run.assert_answers([0, 11, 12, 13], 5_000);
    assert_verdicts(&run, 10_000, 10_000);
    run.finish("every m and n", IN_EVERY_M_AND_N);
}

#[test]
fn random_accepted_files_of_few_nodes() {
    let mut random = Random::new(21);
    let mut run = test_run();
    for round in 0..4_000 {
        let (relations, count) = (random.between(1, 8), random.between(1, 12));
        run.formula_and_verdict(&match round % 2 {
            0 => random.accepted_file(relations, count),
            _ => random.mild_file(relations, count),
        });
    }
    assert_verdicts(&run, 10_000, 2_000);
    run.finish("few nodes", IN_SMALL_FILES);
}

#[test]
fn every_node_of_random_accepted_files() {
    let mut random = Random::new(25);
    let mut run = test_run();
    for round in 0..8_000 {
        let (relations, count) = (random.between(1, 8), random.between(1, 16));
        run.verdict_of_every_node(&match round % 2 {
            0 => random.accepted_file(relations, count),
            _ => random.mild_file(relations, count),
        });
    }
    assert_verdicts(&run, 40_000, 15_000);
    run.finish("every node", IN_EVERY_NODE);
}

/// Whether the subsets with the fewest members, of those the lowest, fill all relations; and whether
/// an attribute has another allowed subset with as few members.
fn choices(inferred: &Inferred) -> (bool, bool) {
    let formula = inferred.formulas.last().expect("a node");
    let (mut filled, mut has_tie) = (0, false);
    for column in 1..COLUMNS {
        let allowed = allowed_subsets(formula, column);
        let Some(&first) = allowed.iter().min_by_key(|&&s| members(s)) else {
            return (false, has_tie);
        };
        let as_few = allowed.iter().filter(|&&s| members(s) == members(first));
        has_tie |= as_few.count() > 1;
        filled |= first;
    }
    (filled + 1 == 1 << inferred.file.relations, has_tie)
}

/// Trees of relations: in at least a tenth the subsets with the fewest members fill all relations,
/// in a tenth they do not, and in a tenth there is a tie.
#[test]
fn every_node_of_trees_of_relations() {
    let mut random = Random::new(26);
    let mut run = test_run();
    let (mut filled, mut ties) = (0, 0);
    for _ in 0..5_000 {
        let relations = random.between(1, 8);
        let bytes = random.tree_file(relations);
        let (is_filled, is_tie) = choices(&infer(&bytes).expect("accepted"));
        filled += u64::from(is_filled);
        ties += u64::from(is_tie);
        run.verdict_of_every_node(&bytes);
    }
    println!("{filled} filled by the fewest members, {ties} with a tie");
    assert!((500..4_500).contains(&filled) && ties >= 500);
    run.finish("trees of relations", IN_TREES);
}

#[test]
fn all_files_of_three_nodes_two_relations_and_two_attributes() {
    let mut run = test_run();
    for bytes in smallest_files() {
        run.verdict_of_every_node(&bytes);
    }
    assert_verdicts(&run, 5_000, 500);
    run.finish("all smallest files", IN_ALL_SMALLEST_FILES);
}

#[test]
fn examples_and_edges_with_every_length() {
    let mut run = test_run();
    for case in cases() {
        run.formula_and_verdict_with_every_length(&case.bytes);
    }
    run.assert_answers(0..=13, 100);
    run.finish("examples and edges", IN_CASES);
}

/// The bytes beyond the prefix are those of the accepted file.
#[test]
fn every_prefix_of_accepted_files() {
    let mut random = Random::new(22);
    let mut files = vec![e1().bytes, longest_accepted()];
    files.extend((0..10).map(|_| random.any_accepted_file()));
    let mut run = test_run();
    for bytes in files {
        for length in 0..=bytes.len() {
            run.formula_and_verdict(&bytes[..length]);
        }
    }
    run.assert_answers([1, 4], 100);
    run.finish("prefixes", IN_PREFIXES);
}

#[test]
fn disturbed_accepted_files() {
    let mut random = Random::new(23);
    let mut run = test_run();
    for _ in 0..4_000 {
        let (relations, count) = (random.between(1, 8), random.between(1, 10));
        let mut bytes = random.mild_file(relations, count);
        for _ in 0..random.between(1, 3) {
            random.disturb(&mut bytes);
        }
        run.formula_and_verdict(&bytes);
    }
    run.assert_answers(0..=13, 100);
    run.finish("disturbed files", IN_DISTURBED_FILES);
}

/// The work space is not cleared between the files, so it holds the formulas of
/// others; what lies beyond 1,024 n stays.
#[test]
fn one_work_space_for_many_files() {
    let mut random = Random::new(24);
    let mut work = random.bytes(64 * FORMULA_LENGTH);
    let mut wanted = work.clone();
    let mut schema = random.bytes(SCHEMA_LENGTH);
    let mut wanted_schema = schema.clone();
    for round in 0..600 {
        let (relations, count) = (random.between(1, 8), random.between(1, 64));
        let bytes = random.mild_file(relations, count);
        let inferred = infer(&bytes).expect("accepted");
        let node = usize::from(random.between(0, count - 1));
        if round % 3 == 2 {
            inferred.formula(&mut wanted);
            engine::formula(&bytes, &mut work);
        } else {
            inferred.verdict(node, &mut wanted, &mut wanted_schema);
            let found = &mut Found::default();
            engine::verdict(&bytes, node, &mut work, &mut schema, found);
        }
        let text = to_hexadecimal(&bytes);
        assert!(work == wanted, "round {round}, node {node}: {text}");
        assert!(
            schema == wanted_schema,
            "round {round}, node {node}: {text}"
        );
    }
}

/// Each node is visited once: visits of operands for each use would be 2 to the 63
/// here and would not end.
#[test]
fn sixty_three_pairs_of_the_node_before_end() {
    let mut run = test_run();
    let (mut work, mut schema) = (vec![0; 64 * FORMULA_LENGTH], vec![0; SCHEMA_LENGTH]);
    for bytes in pairs_of_the_node_before() {
        run.formula_and_verdict(&bytes);
        assert_eq!(engine::formula(&bytes, &mut work), 0);
        let mut found = Found::default();
        let answer = engine::verdict(&bytes, 63, &mut work, &mut schema, &mut found);
        let is_product = bytes[7] == 4;
        let wanted = match is_product {
            true => (255, 0, 0),
            false => (0, 8 * 5, 8),
        };
        assert_eq!((answer, found.value, found.memberships), wanted);
    }
}
