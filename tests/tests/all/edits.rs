//! Edit and Preview of the engine alone: examples worked by hand, refusals in their order, what
//! each slice holds afterwards, and what both have to do with Record, Formula and Verdict.

use std::thread;

use type_formula_tests::alone::{assert_written, edited, formulas, judged, previewed, record_of};
use type_formula_tests::edit_examples::{edit_cases, refused_records, EditCase};
use type_formula_tests::engine::{self, Previewed};
use type_formula_tests::examples::{
    cases, e1, e10, longest_accepted, node_numbers, to_hexadecimal, LONGEST_ACCEPTED,
};
use type_formula_tests::extreme_inputs::{greatest_files, join_of_64_nodes, longest_but_for};
use type_formula_tests::pseudorandom::Random;
use type_formula_tests::reference::{encode_file, encode_node, Node, FILE_LENGTH};
use type_formula_tests::slice_lengths::work_length;

/// The numbers as they are lent.
const SIZE: usize = 77;
const LENT: Previewed = Previewed {
    attribute: 200,
    memberships: 201,
};

/// A record that can stand for every node of E1.
const GOOD: &[u8] = &[1, 2];
/// Records that can stand for none.
const WRONG: [&[u8]; 4] = [&[], &[0], &[1, 3], &[1, 2, 0]];

/// The work space of E1.
const E1_WORK: usize = 7_168;

/// Edit of an example: the answer, the size, and every byte of a longer slice.
fn assert_edit(case: &EditCase) {
    let (mut result, mut size) = (vec![0x55; FILE_LENGTH + 9], SIZE);
    let answer = engine::edit(&case.file, case.node, &case.record, &mut result, &mut size);
    assert_eq!((answer, size), (0, case.edited.len()), "{}", case.name);
    assert_written(case.name, &result, &case.edited);
}

/// Preview of an example: the answer, the numbers, and every byte of a longer work space.
fn assert_preview(case: &EditCase) {
    let (mut work, mut numbers) = (vec![0x55; work_length(&case.file) + 9], LENT);
    let answer = engine::preview(&case.file, case.node, &case.record, &mut work, &mut numbers);
    let wanted = match case.judgement {
        Ok(memberships) => (
            0,
            Previewed {
                memberships,
                ..LENT
            },
        ),
        Err(attribute) => (255, Previewed { attribute, ..LENT }),
    };
    assert_eq!((answer, numbers), wanted, "{}", case.name);
    assert_written(case.name, &work, &formulas(&case.edited));
}

/// Asserts that Edit refuses, and that slice and size stay.
fn assert_edit_refused(file: &[u8], node: usize, record: &[u8], length: usize, refusal: u8) {
    let (mut result, mut size) = (vec![0x55; length], SIZE);
    let answer = engine::edit(file, node, record, &mut result, &mut size);
    let text = to_hexadecimal(record);
    assert_eq!((answer, size), (refusal, SIZE), "node {node}: {text}");
    assert_written("result slice", &result, &[]);
}

/// Asserts that Preview refuses, and that work space and numbers stay.
fn assert_preview_refused(file: &[u8], node: usize, record: &[u8], length: usize, refusal: u8) {
    let (mut work, mut numbers) = (vec![0x55; length], LENT);
    let answer = engine::preview(file, node, record, &mut work, &mut numbers);
    let text = to_hexadecimal(record);
    assert_eq!((answer, numbers), (refusal, LENT), "node {node}: {text}");
    assert_written("work space", &work, &[]);
}

#[test]
fn examples_are_edited() {
    for case in edit_cases() {
        assert_edit(&case);
    }
}

#[test]
fn examples_are_previewed() {
    for case in edit_cases() {
        assert_preview(&case);
    }
}

#[test]
fn records_are_refused() {
    for case in refused_records() {
        let (file, node, record) = (e1().bytes, case.node, &case.record);
        assert_edit_refused(&file, node, record, FILE_LENGTH, case.refusal);
        assert_preview_refused(&file, node, record, E1_WORK, case.refusal);
    }
}

/// Whatever node, record and slice are.
#[test]
fn a_refused_file_comes_first() {
    for case in cases().iter().filter(|case| case.answer != 0) {
        let (file, refusal) = (&case.bytes, case.answer);
        for node in [0, 1, 64, usize::MAX] {
            for record in [GOOD].into_iter().chain(WRONG) {
                for length in [0, FILE_LENGTH] {
                    assert_edit_refused(file, node, record, length, refusal);
                }
                for length in [0, 64 * 1_024] {
                    assert_preview_refused(file, node, record, length, refusal);
                }
            }
        }
    }
}

#[test]
fn a_node_that_is_not_below_n_is_next() {
    let file = e1().bytes;
    let numbers = node_numbers(&file, None).into_iter();
    for node in numbers.filter(|&node| node >= 7) {
        for record in [GOOD].into_iter().chain(WRONG) {
            for length in [0, FILE_LENGTH - 1, FILE_LENGTH] {
                assert_edit_refused(&file, node, record, length, 11);
            }
            for length in [0, E1_WORK - 1, E1_WORK] {
                assert_preview_refused(&file, node, record, length, 11);
            }
        }
    }
}

/// A result slice of 321 bytes is too short for every file, however short that is.
#[test]
fn a_short_slice_comes_before_the_record() {
    let file = e1().bytes;
    let refused = refused_records();
    let records = refused.iter().map(|case| (case.node, &case.record[..]));
    for (node, record) in records.chain((0..7).map(|node| (node, GOOD))) {
        for length in [0, 1, 22, 25, 319, FILE_LENGTH - 1] {
            assert_edit_refused(&file, node, record, length, 27);
        }
        for length in [0, 1, 1_024, E1_WORK - 1] {
            assert_preview_refused(&file, node, record, length, 12);
        }
    }
    assert_edit_refused(&[1, 1, 1, 0], 0, &[1, 0], FILE_LENGTH - 1, 27);
    assert_preview_refused(&[1, 1, 1, 0], 0, &[1, 0], 1_023, 12);
}

/// Slices of no bytes whose pointers lead nowhere.
#[test]
fn empty_slices_are_refused() {
    let file = e1().bytes;
    let mut size = SIZE;
    assert_eq!(engine::edit(&[], 0, &[], &mut [], &mut size), 1);
    assert_eq!(engine::edit(&file, 0, &[], &mut [], &mut size), 27);
    let mut result = [0x55; FILE_LENGTH];
    assert_eq!(engine::edit(&file, 0, &[], &mut result, &mut size), 4);
    let mut numbers = LENT;
    assert_eq!(engine::preview(&[], 0, &[], &mut [], &mut numbers), 1);
    assert_eq!(engine::preview(&file, 0, &[], &mut [], &mut numbers), 12);
    let mut work = [0x55; E1_WORK];
    assert_eq!(engine::preview(&file, 0, &[], &mut work, &mut numbers), 4);
    assert_eq!((size, numbers), (SIZE, LENT));
}

/// The answer of both.
fn answer(file: &[u8], node: usize, record: &[u8]) -> u8 {
    let answer = edited(file, node, record).err().unwrap_or(0);
    assert_eq!(previewed(file, node, record).err().unwrap_or(0), answer);
    answer
}

/// An operand is below the node's own number, whatever the other nodes are, and a relation below m.
#[test]
fn a_record_is_judged_as_the_node_of_its_number() {
    let file = e1().bytes;
    for node in 0..7 {
        for value in 0..=255 {
            let wanted = if usize::from(value) < node { 0 } else { 8 };
            assert_eq!(answer(&file, node, &[34, value, 1]), wanted);
            assert_eq!(answer(&file, node, &[26, value, 6, 0, 0]), wanted);
            assert_eq!(answer(&file, node, &[98, value, 1, 2]), wanted);
            assert_eq!(answer(&file, node, &[14, value, value, 1]), wanted);
            let wanted = if value < 3 { 0 } else { 7 };
            assert_eq!(answer(&file, node, &[1, value]), wanted);
        }
    }
}

/// From 64 relations to the longest file there is, of every number of relations, and back: each
/// edit adds three bytes, or takes three away.
#[test]
fn the_longest_file_is_reached_node_by_node() {
    let with_set = |operand| {
        let set = 0xfffe;
        encode_node(&Node::Projection { operand, set })
    };
    for relations in 1..=8 {
        let relation = Node::Relation {
            relation: relations - 1,
        };
        let shortest = encode_file(relations, &[relation; 64]);
        let mut file = shortest.clone();
        for number in 1..64 {
            let length = file.len();
            file = edited(&file, number.into(), &with_set(number - 1)).expect("edited");
            assert_eq!(file.len(), length + 3);
        }
        assert_eq!(file.len(), LONGEST_ACCEPTED);
        assert_eq!(file[4..], longest_accepted()[4..]);
        for node in (1..64).rev() {
            file = edited(&file, node, &encode_node(&relation)).expect("edited");
        }
        assert_eq!(file, shortest);
    }
}

/// Each node may be the last that is exchanged.
#[test]
fn the_longest_file_is_reached_by_each_node() {
    let longest = longest_accepted();
    for number in 1..64 {
        let (file, node) = (longest_but_for(number), usize::from(number));
        assert_eq!(file.len(), 316);
        let record = record_of(&longest, node);
        assert_eq!(edited(&file, node, record).as_ref(), Ok(&longest));
        assert_eq!(edited(&longest, node, record_of(&file, node)), Ok(file));
    }
}

/// The record is then a part of the lent file.
#[test]
fn a_node_exchanged_for_itself_leaves_the_file() {
    let mut files = vec![e1().bytes, e10().bytes];
    files.extend(greatest_files());
    for file in files {
        for node in 0..usize::from(file[1]) {
            let given = edited(&file, node, record_of(&file, node));
            assert_eq!(given.as_ref(), Ok(&file), "node {node}");
        }
    }
}

/// Asserts that the edited file has the record and, at every other node, the one that it had, and
/// that with the old record it is the old file again.
fn assert_exchanged(file: &[u8], node: usize, record: &[u8], written: &[u8]) {
    assert_eq!(written[..2], file[..2]);
    for each in 0..usize::from(file[1]) {
        let wanted = match each == node {
            true => record,
            false => record_of(file, each),
        };
        assert_eq!(record_of(written, each), wanted, "node {each}");
    }
    let back = edited(written, node, record_of(file, node));
    assert_eq!(back.as_deref(), Ok(file));
}

/// Asserts what both have to do with the other operations: the node is exchanged, and Preview says
/// of the last node what Verdict says of the edited file, and leaves the work space as Verdict and
/// Formula do. Gives Preview's answer, which is Edit's where they refuse.
fn assert_equations(file: &[u8], node: usize, record: &[u8]) -> u8 {
    let preview = previewed(file, node, record);
    let written = match edited(file, node, record) {
        Ok(written) => written,
        Err(refusal) => {
            assert_eq!(preview.err(), Some(refusal));
            return refusal;
        }
    };
    assert_exchanged(file, node, record, &written);
    let (judgement, work) = preview.expect("not refused");
    assert!(work == formulas(&written), "{}", to_hexadecimal(&written));
    assert!((judgement, work) == judged(&written));
    match judgement {
        Ok(_) => 0,
        Err(_) => 255,
    }
}

/// How often each answer came up.
fn counted(answers: impl IntoIterator<Item = u8>) -> [u64; 256] {
    let mut counts = [0; 256];
    for answer in answers {
        counts[usize::from(answer)] += 1;
    }
    counts
}

#[test]
fn equations_of_the_examples() {
    let answers = edit_cases().into_iter().map(|case| {
        let answer = assert_equations(&case.file, case.node, &case.record);
        assert_eq!(answer == 0, case.judgement.is_ok(), "{}", case.name);
        answer
    });
    let counts = counted(answers);
    assert!(counts[0] >= 10 && counts[255] >= 5);
}

/// Records that can stand for the node, most often, and such that are disturbed.
#[test]
fn equations_of_random_files() {
    let mut random = Random::new(810);
    let mut answers = Vec::new();
    for round in 0..6_000 {
        let (relations, count) = (random.between(1, 8), random.between(1, 12));
        let file = random.likely_file(relations, count);
        let number = random.between(0, count - 1);
        let mut record = encode_node(&random.mild_node(relations, number));
        if round % 4 == 0 {
            random.disturb(&mut record);
        }
        answers.push(assert_equations(&file, number.into(), &record));
    }
    let counts = counted(answers);
    println!("{:?} and {}", &counts[..11], counts[255]);
    assert!(counts[0] >= 1_000 && counts[255] >= 500);
    assert!([4, 5, 8, 10].iter().all(|&refusal| counts[refusal] > 10));
}

#[test]
fn equations_of_every_node_of_the_greatest_files() {
    let mut random = Random::new(811);
    for file in greatest_files() {
        for number in 0..64 {
            let record = encode_node(&random.mild_node(8, number));
            assert_equations(&file, number.into(), &record);
        }
    }
}

/// The stack that the header names is enough where the table of costs is the largest; the rest is
/// for the thread itself.
#[test]
fn preview_needs_no_more_stack_than_the_header_says() {
    let file = join_of_64_nodes();
    let (mut work, mut numbers) = (vec![0; work_length(&file)], LENT);
    let preview = move || {
        let record = record_of(&file, 32);
        let answer = engine::preview(&file, 32, record, &mut work, &mut numbers);
        (answer, numbers.memberships)
    };
    let thread = thread::Builder::new().stack_size(6_000 + 16_384);
    let given = thread.spawn(preview).expect("a thread").join();
    assert_eq!(given.expect("it ends"), (0, 8));
}

/// One work space and one result slice for many edits, each of the file that the one before it
/// wrote: what is left of the others does not matter.
#[test]
fn edits_one_after_the_other() {
    let mut random = Random::new(812);
    let (mut work, mut result) = (random.bytes(64 * 1_024), random.bytes(FILE_LENGTH));
    let mut file = e10().bytes;
    for _ in 0..2_000 {
        let number = random.between(0, file[1] - 1);
        let record = encode_node(&random.mild_node(file[0], number));
        let (node, mut numbers, mut size) = (number.into(), LENT, SIZE);
        let answer = engine::preview(&file, node, &record, &mut work, &mut numbers);
        let edited = engine::edit(&file, node, &record, &mut result, &mut size);
        assert_eq!(edited, 0, "{}", to_hexadecimal(&file));
        file = result[..size].to_vec();
        let (judgement, formulas) = judged(&file);
        let given = match answer {
            0 => Ok(numbers.memberships),
            _ => Err(numbers.attribute),
        };
        assert_eq!(given, judgement, "{}", to_hexadecimal(&file));
        assert!(work.starts_with(&formulas), "{}", to_hexadecimal(&file));
    }
}
