//! The engine against the reference: Verdict's witness, which gives every relation an attribute with
//! the fewest memberships. Each witness is read by Typing, and the same schema comes back by Recover
//! and Apply.

use type_formula_tests::alone;
use type_formula_tests::answer::{Operation, NO_TYPE, RESULT};
use type_formula_tests::engine::{self, Found};
use type_formula_tests::examples::{
    from_hexadecimal, join_of_eight, smallest_files, to_hexadecimal,
};
use type_formula_tests::input::Input;
use type_formula_tests::pseudorandom::Random;
use type_formula_tests::random_covers::FileKind;
use type_formula_tests::reference::{
    best_cover, encode_file, Choices, Node, Typing, Verdict, OUTPUT_LENGTH, SCHEMA_LENGTH,
};
use type_formula_tests::test_run::TestRun;

/// The least number of comparisons of each test.
const IN_TIES: u64 = 1_000;
const IN_KINDS: u64 = 2_000;
const IN_WITNESSES: u64 = 8_000;

/// A run with random slices and numbers before each call.
fn test_run() -> TestRun {
    TestRun::new(710)
}

/// The lengths of work space and schema that are exactly enough.
fn lengths(input: &Input) -> [usize; 2] {
    [input.work_length(), SCHEMA_LENGTH]
}

/// Verdict of the engine alone: the witness and its memberships, or the attribute.
fn verdict_of(file: &[u8]) -> Result<(Vec<u8>, u8), usize> {
    let input = Input::new(file.to_vec());
    let (mut work, mut schema) = (vec![0x55; input.work_length()], vec![0x55; SCHEMA_LENGTH]);
    let (last, mut found) = (usize::from(file[1]) - 1, Found::default());
    let answer = engine::verdict(file, last, &mut work, &mut schema, &mut found);
    assert!(work == input.formulas().concat());
    match answer {
        0 => Ok((schema[..found.value].to_vec(), found.memberships)),
        255 => {
            assert!(schema.iter().all(|&byte| byte == 0x55));
            Err(found.value)
        }
        refusal => panic!("refused {refusal}"),
    }
}

fn relation(relation: u8) -> Node {
    Node::Relation { relation }
}

fn selection(operand: u8, set: u16) -> Node {
    Node::Selection { operand, set }
}

/// The file, the witness as hexadecimal pairs, and its memberships.
type Known = (&'static str, Vec<u8>, &'static str, u8);

/// Files whose witnesses are known, but for the examples of documents 01 and 02.
fn known_witnesses() -> Vec<Known> {
    let join = join_of_eight();
    let with = |nodes: &[Node], after: &[Node]| [nodes, after].concat();
    let two = [relation(0), relation(1)];
    let product = Node::Product { left: 0, right: 1 };
    let union = Node::Union { left: 0, right: 1 };
    vec![
        (
            "one relation",
            encode_file(1, &two[..1]),
            "01 00 01 10 00",
            1,
        ),
        (
            "a relation that is not named",
            encode_file(2, &two[..1]),
            "01 00 01 10 00 01 00 01 11 00",
            2,
        ),
        (
            "one variable for two relations",
            encode_file(2, &with(&two, &[union])),
            "01 00 01 10 00 01 00 01 10 00",
            2,
        ),
        (
            "a product, each with its own",
            encode_file(2, &with(&two, &[product])),
            "01 00 01 10 00 01 00 01 11 00",
            2,
        ),
        (
            "an attribute that fills one of two",
            encode_file(2, &with(&two, &[product, selection(2, 0b10)])),
            "02 00 01 00 01 10 00",
            2,
        ),
        (
            "eight variables",
            encode_file(8, &join),
            "01 00 01 10 00 01 00 01 11 00 01 00 01 12 00 01 00 01 13 00 \
             01 00 01 14 00 01 00 01 15 00 01 00 01 16 00 01 00 01 17 00",
            8,
        ),
        (
            "three attributes and five variables",
            encode_file(8, &with(&join, &[selection(14, 0b1110)])),
            "02 00 04 00 08 00 01 00 01 10 00 01 00 01 11 00 01 00 01 12 00 \
             01 00 01 13 00 01 00 01 14 00",
            8,
        ),
        (
            "fifteen attributes for eight relations",
            encode_file(8, &with(&join, &[selection(14, 0xfffe)])),
            "fe 01 00 02 00 04 00 08 00 10 00 20 00 40 00 80",
            15,
        ),
    ]
}

#[test]
fn known_witnesses_are_given() {
    for (name, file, witness, memberships) in known_witnesses() {
        let wanted = Ok((from_hexadecimal(witness), memberships));
        assert_eq!(verdict_of(&file), wanted, "{name}");
    }
}

/// Products of a relation with itself, alone, beside others and under other operators.
#[test]
fn relations_that_cannot_all_be_filled_are_untypable_with_attribute_0() {
    let square = Node::Product { left: 0, right: 0 };
    for relations in 1..=8 {
        for relation_squared in 0..relations {
            let nodes = [relation(relation_squared), square];
            assert_eq!(verdict_of(&encode_file(relations, &nodes)), Err(0));
        }
    }
    let of_two = [
        relation(0),
        relation(1),
        Node::Product { left: 0, right: 1 },
    ];
    let squares = [
        Node::Product { left: 2, right: 0 },
        Node::Product { left: 2, right: 1 },
        Node::Product { left: 2, right: 2 },
    ];
    for square in squares {
        let nodes = [&of_two[..], &[square]].concat();
        assert_eq!(verdict_of(&encode_file(2, &nodes)), Err(0));
        assert_eq!(verdict_of(&encode_file(8, &nodes)), Err(0));
        let blocked = [&nodes[..], &[selection(3, 0b100)]].concat();
        assert!(matches!(verdict_of(&encode_file(2, &blocked)), Err(0 | 2)));
    }
}

/// An attribute whose column allows nothing comes before 0.
#[test]
fn a_blocked_attribute_comes_before_0() {
    let square = Node::Product { left: 0, right: 0 };
    for attribute in 1..16 {
        let nodes = [relation(0), square, selection(1, 1 << attribute)];
        for relations in [1, 2, 8] {
            let file = encode_file(relations, &nodes);
            assert_eq!(verdict_of(&file), Err(attribute));
        }
    }
}

/// Files with several best covers are at least a tenth of those compared.
#[test]
fn ties_go_to_the_lower_subset_and_then_to_the_lower_variables() {
    let mut random = Random::new(711);
    let mut run = test_run();
    let (mut compared, mut ties, mut in_subsets) = (0, 0, 0);
    for round in 0..IN_TIES {
        let relations = 1 + (round % 8) as u8;
        let kind = FileKind::ALL[random.below(FileKind::ALL.len())];
        let input = Input::new(random.file_of_kind(kind, relations));
        let node = input.formulas().len() - 1;
        run.verdict(&input, node, lengths(&input));
        let choices = Choices::of(&input.formulas()[node], relations);
        let several = choices.count_best() > 1;
        compared += 1;
        ties += u64::from(several);
        if let (true, Some(cover)) = (several, choices.best_by_sets()) {
            in_subsets += u64::from(cover.variables.is_empty());
        }
    }
    println!(
        "{ties} of {compared} with several best covers, {in_subsets} of them of subsets alone"
    );
    assert!(ties >= compared / 10, "{ties} of {compared}");
    run.finish("ties", IN_TIES);
}

/// Each kind of file gives what it is made for.
#[test]
fn every_kind_of_file() {
    let mut random = Random::new(712);
    let mut run = test_run();
    for kind in FileKind::ALL {
        let (mut typable, mut blocked, mut empty, mut with_variables) = (0, 0, 0, 0);
        for _ in 0..400 {
            let relations = random.between(1, 8);
            let input = Input::new(random.file_of_kind(kind, relations));
            let node = input.formulas().len() - 1;
            match run.verdict(&input, node, lengths(&input)) {
                Verdict::Typable { length, .. } => {
                    typable += 1;
                    with_variables += u64::from(length > 2 * usize::from(relations));
                }
                Verdict::Untypable { attribute: 0 } => empty += 1,
                Verdict::Untypable { .. } => blocked += 1,
                Verdict::Refused { number } => panic!("refused {number}"),
            }
        }
        println!("{kind:?}: {typable} typable, {with_variables} of them with variables");
        println!("  {blocked} blocked, {empty} not filled");
        match kind {
            FileKind::Fewest => assert!(typable == 400 && with_variables == 0),
            FileKind::Variables => assert!(typable == 400 && with_variables >= 200),
            FileKind::Empty => assert!(empty >= 200),
            FileKind::Blocked => assert!(blocked >= 200),
            FileKind::Columns => assert!(typable >= 300),
            FileKind::Mild => assert!(typable >= 100),
        }
    }
    run.assert_given(Operation::Verdict, [RESULT, NO_TYPE], 200);
    run.finish("kinds of files", IN_KINDS);
}

/// The witness is no schema that Typing refuses, the node is typed under it, and Recover and Apply
/// lead back to it.
#[test]
fn witnesses_are_typed_and_come_back() {
    let mut random = Random::new(713);
    let mut run = test_run();
    let mut with_variables = 0;
    for round in 0..IN_WITNESSES {
        let relations = random.between(1, 8);
        let kind = FileKind::ALL[round as usize % FileKind::ALL.len()];
        let input = Input::new(random.file_of_kind(kind, relations));
        let node = input.formulas().len() - 1;
        run.verdict(&input, node, lengths(&input));
        let Ok((witness, memberships)) = verdict_of(&input.bytes) else {
            continue;
        };
        let typing = run.typing(&input.bytes, node, &witness, OUTPUT_LENGTH);
        let text = to_hexadecimal(&input.bytes);
        assert!(matches!(typing, Typing::Typed { .. }), "{typing:?}: {text}");
        let recovered = alone::recovered(&input, node, &witness);
        assert_eq!(
            alone::applied(&input, node, &recovered).0,
            witness,
            "{text}"
        );
        let cover = best_cover(&input.formulas()[node], relations).expect("typable");
        assert_eq!(usize::from(memberships), cover.memberships);
        with_variables += u64::from(!cover.variables.is_empty());
    }
    println!("{with_variables} with variables");
    assert!(with_variables >= 1_000);
    run.finish("witnesses", IN_WITNESSES);
}

/// Every node of every small file.
#[test]
fn witnesses_of_all_smallest_files_are_typed() {
    let mut typable = 0;
    for bytes in smallest_files() {
        let mut out = vec![0; OUTPUT_LENGTH];
        if let Ok((witness, _)) = verdict_of(&bytes) {
            let answer = engine::typing(&bytes, 2, &witness, &mut out, &mut 0);
            assert_eq!(answer, 0, "{}", to_hexadecimal(&bytes));
            typable += 1;
        }
    }
    assert!(typable >= 1_000, "{typable}");
}
