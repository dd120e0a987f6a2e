//! Each operation on E1 and near it: answers, written parts, and slices that stay.

use std::thread;

use type_formula::*;

/// E1, selection {2,3} of (renaming 1 into 2 of r0, union r1) join r2.
const E1: &[u8] = include_bytes!("../../examples/e1");
/// E1 as text.
const E1_TEXT: &str = "S[2,3]((N[1>2]r0+r1)*r2)";
/// The witness of E1.
const FEWEST: [u8; 6] = [2, 0, 4, 0, 8, 0];
/// Another schema that types E1: r0(a1, a3), r1(a2, a3), r2(a4).
const SCHEMA: [u8; 6] = [10, 0, 12, 0, 16, 0];
/// Its instantiation.
const INSTANTIATION: [u8; 47] = {
    let mut bytes = [0; 47];
    (bytes[0], bytes[1], bytes[2], bytes[3]) = (1, 2, 3, 4);
    bytes
};
/// What slices hold before a call.
const BEFORE: u8 = 0x55;

/// Asserts that no byte was written.
fn assert_stays(bytes: &[u8]) {
    assert!(bytes.iter().all(|&byte| byte == BEFORE));
}

#[test]
fn accept_gives_the_counts_or_the_first_refusal() {
    let e1 = accept(E1).expect("accepted");
    assert_eq!((e1.relation_count(), e1.node_count()), (3, 7));
    assert_eq!(e1.bytes(), E1);
    let refused = |file: &[u8], refusal| assert_eq!(accept(file), Err(refusal));
    refused(&[], Refusal::HeaderTruncated);
    refused(&[9, 65], Refusal::RelationCount);
    refused(&E1[..24], Refusal::NodeTruncated);
}

#[test]
fn record_is_a_part_of_the_file() {
    let part = record(E1, 6).expect("a node");
    assert_eq!(part.as_ptr(), E1[20..].as_ptr());
    assert_eq!(part.len(), 5);
    assert_eq!(record(E1, 7), Err(Refusal::NodeNumber));
    assert_eq!(record(E1, usize::MAX), Err(Refusal::NodeNumber));
    assert_eq!(record(&E1[..24], 0), Err(Refusal::NodeTruncated));
    assert_eq!(record(&[], 0), Err(Refusal::HeaderTruncated));
}

#[test]
fn read_node_gives_each_kind_of_node() {
    let reads = |bytes: &[u8], node: Node| {
        assert_eq!(read_node(3, 6, bytes), Ok((node, bytes.len())));
        assert_eq!(node.record().bytes(), bytes);
    };
    let (left, right, operand, old, new) = (5, 4, 3, 15, 1);
    reads(&[1, 2], Node::Relation { relation: 2 });
    let operators = [
        BinaryOp::Union,
        BinaryOp::Difference,
        BinaryOp::Join,
        BinaryOp::Product,
    ];
    for op in operators {
        reads(&[14, 5, 4, op as u8], Node::Binary { op, left, right });
    }
    for op in [SetOp::Selection, SetOp::Projection] {
        let set = 0x8002;
        let node = Node::WithSet { op, operand, set };
        reads(&[26, 3, op as u8, 0x02, 0x80], node);
    }
    reads(&[98, 3, 15, 1], Node::Renaming { operand, old, new });
    reads(&[34, 3, 15], Node::ProjectingOut { operand, old });
}

#[test]
fn read_node_gives_the_first_refusal() {
    let refused = |bytes: &[u8], refusal| assert_eq!(read_node(3, 6, bytes), Err(refusal));
    refused(&[], Refusal::NodeTruncated);
    refused(&[0], Refusal::NodeMap);
    refused(&[14, 0, 0, 5], Refusal::OperatorCode);
    refused(&[1, 3], Refusal::RelationNumber);
    refused(&[34, 6, 0], Refusal::Operand);
    refused(&[34, 0, 0], Refusal::Attribute);
}

#[test]
fn formula_fills_the_formulas_and_no_more() {
    let mut work = [BEFORE; 7 * FORMULA_SIZE + 1];
    let short = &mut work[..7 * FORMULA_SIZE - 1];
    assert_eq!(formula(E1, short), Err(Refusal::WorkSpace));
    assert_stays(&work);
    let formulas = formula(E1, &mut work).expect("filled");
    assert_eq!(formulas.bytes().len(), 7 * FORMULA_SIZE);
    let last = formulas.last().bytes();
    assert_eq!((last[0], last[32]), (0x99, 0x98));
    assert_eq!((last[64], last[64 + 32]), (0x22, 0x20));
    assert_stays(&work[7 * FORMULA_SIZE..]);
}

#[test]
fn verdict_writes_the_witness() {
    let (mut work, mut schema) = ([BEFORE; WORK_SIZE], [BEFORE; SCHEMA_SIZE]);
    let given = verdict(E1, 7, &mut work, &mut schema);
    assert_eq!(given, Err(Refusal::NodeNumber));
    let given = verdict(E1, 6, &mut work, &mut schema[1..]);
    assert_eq!(given, Err(Refusal::ResultSlice));
    assert_stays(&work);
    assert_stays(&schema);
    let given = verdict(E1, 6, &mut work, &mut schema);
    let wanted = Verdict::Typable {
        witness: Schema::read(3, &FEWEST).expect("a schema"),
        memberships: 3,
    };
    assert_eq!(given, Ok(wanted));
    assert_stays(&schema[FEWEST.len()..]);
}

#[test]
fn verdict_fills_relations_with_ordinary_attributes() {
    // E10: the selection {1} of r0 join r1, join ((r0 product r2) minus r3).
    let file = [
        4, 9, 1, 0, 1, 1, 14, 0, 1, 3, 26, 2, 5, 2, 0, 1, 2, 14, 0, 4, 4, 1, 3, 14, 5, 6, 2, 14, 3,
        7, 3,
    ];
    let (mut work, mut schema) = ([BEFORE; WORK_SIZE], [BEFORE; SCHEMA_SIZE]);
    let given = verdict(&file, 8, &mut work, &mut schema);
    let Ok(Verdict::Typable {
        witness,
        memberships,
    }) = given
    else {
        panic!("{given:?}")
    };
    assert_eq!(witness.to_string(), "r0(16), r1(a1), r2(17), r3(16, 17)");
    assert_eq!(memberships, 5);
    let length = witness.bytes().len();
    assert_eq!(length, 19);
    assert_stays(&schema[length..]);
}

#[test]
fn verdict_names_the_attribute_of_an_untypable_node() {
    // E5: the selection {1,2} of the projection {2,3} of r0.
    let blocked = [1, 3, 1, 0, 26, 0, 6, 12, 0, 26, 1, 5, 6, 0];
    // E7: the product of r0 with itself.
    let empty = [1, 2, 1, 0, 14, 0, 0, 4];
    let (mut work, mut schema) = ([BEFORE; WORK_SIZE], [BEFORE; SCHEMA_SIZE]);
    for (file, node, attribute) in [(&blocked[..], 2, 1), (&empty, 1, 0)] {
        let given = verdict(file, node, &mut work, &mut schema);
        assert_eq!(given, Ok(Verdict::Untypable { attribute }));
        assert_stays(&schema);
        let formulas = Formulas::in_work_space(accept(file).expect("accepted"), &work);
        let last = formulas.expect("long enough").last();
        assert_eq!(last.untypable_attribute(), Some(attribute));
    }
}

#[test]
fn typing_writes_the_output_record() {
    let mut out = [BEFORE; OUTPUT_SIZE];
    let e4 = [11, 0, 1, 20, 0, 12, 0, 16, 0];
    assert_eq!(typing(E1, 6, &e4, &mut out), Ok(Typing::Untyped));
    let given = typing(E1, 6, &SCHEMA[..5], &mut out);
    assert_eq!(given, Err(Refusal::InputTruncated));
    let given = typing(E1, 6, &[10, 0, 12, 0, 0, 0], &mut out);
    assert_eq!(given, Err(Refusal::EmptyRecord));
    assert_stays(&out);
    let e3 = [11, 0, 1, 20, 0, 13, 0, 1, 20, 0, 16, 0];
    let given = typing(E1, 6, &e3, &mut out);
    let output = TypeRecord::read(&[29, 0, 1, 20, 0]).expect("a record");
    assert_eq!(given, Ok(Typing::Typed(output)));
    assert_stays(&out[5..]);
}

#[test]
fn apply_writes_schema_and_output_record() {
    let mut work = [BEFORE; WORK_SIZE];
    let (mut schema, mut out) = ([BEFORE; SCHEMA_SIZE], [BEFORE; OUTPUT_SIZE]);
    let given = apply(E1, 6, &[0; 47], &mut work, &mut schema, &mut out);
    assert_eq!(given, Err(Refusal::SpecialSubset));
    let mut empty = INSTANTIATION;
    empty[3] = 0;
    let given = apply(E1, 6, &empty, &mut work, &mut schema, &mut out);
    assert_eq!(given, Err(Refusal::EmptyImage));
    assert_stays(&schema);
    assert_stays(&out);
    let given = apply(E1, 6, &INSTANTIATION, &mut work, &mut schema, &mut out);
    let given = given.expect("applied");
    assert_eq!(given.schema.bytes(), SCHEMA);
    assert_eq!(given.output.bytes(), [28, 0]);
    assert_stays(&schema[SCHEMA.len()..]);
    assert_stays(&out[2..]);
}

#[test]
fn recover_writes_the_instantiation() {
    let mut work = [BEFORE; WORK_SIZE];
    let mut result = [BEFORE; INSTANTIATION_SIZE];
    let given = recover(E1, 6, &[2; 6], &mut work, &mut result);
    assert_eq!(given, Ok(Recovery::Untyped));
    let given = recover(E1, 6, &[0; 6], &mut work, &mut result);
    assert_eq!(given, Err(Refusal::EmptyRecord));
    let given = recover(E1, 6, &[0; 7], &mut work, &mut result);
    assert_eq!(given, Err(Refusal::InputFollowed));
    assert_stays(&result);
    let given = recover(E1, 6, &SCHEMA, &mut work, &mut result);
    let wanted = Instantiation::read(&INSTANTIATION).expect("an instantiation");
    assert_eq!(given, Ok(Recovery::Recovered(wanted)));
    assert_stays(&result[INSTANTIATION.len()..]);
}

#[test]
fn parse_query_writes_the_file() {
    let mut file = [BEFORE; LONGEST_FILE + 1];
    let given = parse_query(3, E1_TEXT, &mut file).expect("a query");
    assert_eq!(given.bytes(), E1);
    assert_eq!(accept(E1), Ok(given));
    assert_stays(&file[E1.len()..]);
}

#[test]
fn parse_query_takes_text_and_bytes() {
    let mut file = [BEFORE; LONGEST_FILE];
    let mut parsed =
        |bytes: &[u8]| parse_query(3, bytes, &mut file).map(|query| query.node_count());
    assert_eq!(parsed(E1_TEXT.as_bytes()), Ok(7));
    assert_eq!(parsed(b"r0\xff"), Err(Refusal::QuerySyntax));
    let owned = String::from(E1_TEXT);
    assert!(parse_query(3, &owned, &mut file).is_ok());
    assert!(parse_query(3, owned.into_bytes(), &mut file).is_ok());
}

#[test]
fn parse_query_gives_the_first_refusal_and_writes_nothing() {
    let mut file = [BEFORE; LONGEST_FILE];
    let mut refused = |relations, text: &str, length: usize, refusal| {
        let given = parse_query(relations, text, &mut file[..length]);
        assert_eq!(given, Err(refusal), "{text}");
    };
    let (long, nodes) = (
        "r".repeat(LONGEST_QUERY + 1),
        "P[]".repeat(MOST_NODES) + "r9",
    );
    let enough = LONGEST_FILE;
    refused(0, &long, 0, Refusal::RelationCount);
    refused(9, &long, 0, Refusal::RelationCount);
    refused(3, &long, enough - 1, Refusal::ResultSlice);
    refused(3, &long, enough, Refusal::QueryLength);
    refused(3, &long[1..], enough, Refusal::QuerySyntax);
    for text in [
        "", " r0", "r0 ", "r10", "(r0)", "(r0+r1", "S[1,1]r0", "S[01]r0",
    ] {
        refused(3, text, enough, Refusal::QuerySyntax);
    }
    refused(3, &nodes, enough, Refusal::QueryNodes);
    refused(3, &nodes[3..], enough, Refusal::RelationNumber);
    refused(3, "(r3+D[0]r0)", enough, Refusal::RelationNumber);
    refused(3, "D[0]r3", enough, Refusal::Attribute);
    refused(3, "N[15>16]r0", enough, Refusal::Attribute);
    assert_stays(&file);
}

#[test]
fn edit_writes_the_edited_file() {
    let mut result = [BEFORE; LONGEST_FILE + 1];
    for (record, length) in [
        (&[26, 5, 6, 12, 0][..], 25),
        (&[14, 5, 4, 3], 24),
        (&[34, 5, 2], 23),
        (&[1, 2], 22),
    ] {
        result.fill(BEFORE);
        let given = edit(E1, 6, record, &mut result).expect("edited");
        assert_eq!(given.bytes(), [&E1[..20], record].concat());
        assert_eq!(accept(given.bytes()), Ok(given));
        assert_stays(&result[length..]);
    }
}

#[test]
fn edit_exchanges_each_node_of_e1() {
    let mut result = [BEFORE; LONGEST_FILE];
    for number in 0..7 {
        let node = Node::Relation { relation: 2 };
        let given = edit(E1, number, node.record().bytes(), &mut result).expect("edited");
        let old = accept(E1).expect("accepted");
        assert_eq!(given.node(number), Some(node));
        for other in (0..7).filter(|&other| other != number) {
            assert_eq!(given.node(other), old.node(other));
            assert_eq!(record(given.bytes(), other), record(E1, other));
        }
    }
}

#[test]
fn edit_gives_the_first_refusal_and_writes_nothing() {
    let mut result = [BEFORE; LONGEST_FILE];
    let mut refused = |file: &[u8], node, record: &[u8], length: usize, refusal| {
        let given = edit(file, node, record, &mut result[..length]);
        assert_eq!(given, Err(refusal), "{record:?}");
    };
    let enough = LONGEST_FILE;
    refused(&[], 7, &[], 0, Refusal::HeaderTruncated);
    refused(&E1[..24], 7, &[], 0, Refusal::NodeTruncated);
    refused(E1, 7, &[], 0, Refusal::NodeNumber);
    refused(E1, usize::MAX, &[], enough, Refusal::NodeNumber);
    refused(E1, 6, &[], enough - 1, Refusal::EditSlice);
    refused(E1, 6, &[], enough, Refusal::NodeTruncated);
    refused(E1, 6, &[0], enough, Refusal::NodeMap);
    refused(E1, 6, &[14, 6, 6, 0], enough, Refusal::Operand);
    refused(E1, 6, &[14, 5, 5, 0], enough, Refusal::OperatorCode);
    refused(E1, 6, &[1, 3, 0], enough, Refusal::RelationNumber);
    refused(E1, 6, &[34, 5, 16, 0], enough, Refusal::Attribute);
    refused(E1, 6, &[34, 5, 15, 0], enough, Refusal::NodesFollowed);
    assert_stays(&result);
}

/// What Verdict gives of the last node of a file, but for the witness, and the work space.
fn last_verdict(file: &[u8]) -> (Preview, Vec<u8>) {
    let (mut work, mut schema) = (vec![BEFORE; WORK_SIZE], [BEFORE; SCHEMA_SIZE]);
    let last = usize::from(file[1]) - 1;
    let given = match verdict(file, last, &mut work, &mut schema).expect("accepted") {
        Verdict::Typable { memberships, .. } => Preview::Typable { memberships },
        Verdict::Untypable { attribute } => Preview::Untypable { attribute },
    };
    (given, work)
}

#[test]
fn preview_gives_the_verdict_of_the_edited_file() {
    let mut result = [BEFORE; LONGEST_FILE];
    for (node, record, wanted) in [
        (
            6,
            &[26, 5, 6, 12, 0][..],
            Preview::Typable { memberships: 3 },
        ),
        (6, &[26, 5, 6, 4, 0], Preview::Typable { memberships: 3 }),
        (6, &[98, 5, 2, 2], Preview::Untypable { attribute: 2 }),
        (1, &[98, 0, 3, 3], Preview::Untypable { attribute: 3 }),
        (5, &[14, 3, 3, 4], Preview::Untypable { attribute: 2 }),
    ] {
        let mut work = vec![BEFORE; WORK_SIZE];
        assert_eq!(preview(E1, node, record, &mut work), Ok(wanted));
        let edited = edit(E1, node, record, &mut result).expect("edited");
        assert_eq!(last_verdict(edited.bytes()), (wanted, work));
    }
}

#[test]
fn preview_gives_the_first_refusal_and_writes_nothing() {
    let mut work = [BEFORE; 7 * FORMULA_SIZE];
    let mut refused = |file: &[u8], node, record: &[u8], length: usize, refusal| {
        let given = preview(file, node, record, &mut work[..length]);
        assert_eq!(given, Err(refusal), "{record:?}");
    };
    let enough = 7 * FORMULA_SIZE;
    refused(&[], 7, &[], 0, Refusal::HeaderTruncated);
    refused(&E1[..24], 7, &[], 0, Refusal::NodeTruncated);
    refused(E1, 7, &[], 0, Refusal::NodeNumber);
    refused(E1, 6, &[], enough - 1, Refusal::WorkSpace);
    refused(E1, 6, &[], enough, Refusal::NodeTruncated);
    refused(E1, 6, &[1, 3, 0], enough, Refusal::RelationNumber);
    refused(E1, 6, &[1, 2, 0], enough, Refusal::NodesFollowed);
    assert_stays(&work);
}

#[test]
fn threads_may_call_at_the_same_time() {
    let calls = || {
        let (mut work, mut schema) = (vec![BEFORE; WORK_SIZE], vec![BEFORE; SCHEMA_SIZE]);
        for _ in 0..1_000 {
            let given = verdict(E1, 6, &mut work, &mut schema);
            let Ok(Verdict::Typable { witness, .. }) = given else {
                panic!("{given:?}")
            };
            assert_eq!(witness.bytes(), FEWEST);
        }
    };
    thread::scope(|scope| {
        for _ in 0..4 {
            scope.spawn(calls);
        }
    });
}
