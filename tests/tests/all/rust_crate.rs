//! The safe functions of the crate `type_formula` against the C functions that they call:
//! on the same inputs the same answers, and the same bytes in every slice.

use type_formula::{
    accept, apply, edit, formula, parse_query, preview, read_node, record, recover, typing,
    verdict, BinaryOp, Node, Preview, Recovery, Refusal, SetOp, Typing, Verdict,
    INSTANTIATION_SIZE, LONGEST_FILE, OUTPUT_SIZE, SCHEMA_SIZE, WORK_SIZE,
};
use type_formula_tests::engine::{self, Found, Lengths, Previewed, UNTYPABLE, UNTYPED};
use type_formula_tests::examples::to_hexadecimal;
use type_formula_tests::pseudorandom::Random;
use type_formula_tests::reference::{encode_instantiation, encode_node, encode_schema, infer};

/// The number of inputs of each operation.
const INPUTS: usize = 3_000;

/// A file, a node to ask, a schema and an instantiation; each may be damaged.
struct Input {
    file: Vec<u8>,
    node: usize,
    schema: Vec<u8>,
    instantiation: Vec<u8>,
}

impl Input {
    /// An accepted file with a schema and an instantiation near its formula; one part is damaged
    /// one time in two, and one time in eight all parts are any bytes.
    fn new(random: &mut Random) -> Self {
        if random.below(8) == 0 {
            let mut bytes = || {
                let length = random.below(60);
                random.likely_bytes(length)
            };
            let (file, schema, instantiation) = (bytes(), bytes(), bytes());
            let node = random.below(8);
            return Input {
                file,
                node,
                schema,
                instantiation,
            };
        }
        let mut input = Input::accepted(random);
        match random.below(8) {
            0 => random.disturb(&mut input.file),
            1 => random.disturb(&mut input.schema),
            2 => random.disturb(&mut input.instantiation),
            3 => input.node = [input.node + 64, usize::MAX, 1 << 32][random.below(3)],
            _ => {}
        }
        input
    }

    /// An accepted file; schema and instantiation mostly fit the node asked, else almost.
    fn accepted(random: &mut Random) -> Self {
        let (relations, nodes) = (random.between(1, 8), random.between(1, 12));
        let file = random.mild_file(relations, nodes);
        let inferred = infer(&file).expect("accepted");
        let node = random.likely_node(&inferred.formulas);
        let ordinary = random.below(40);
        let formula = &inferred.formulas[node];
        let mut instantiation = random.likely_instantiation(formula, relations, ordinary);
        let mut image = instantiation.image(relations);
        match random.below(4) {
            0 => random.disturb_assignment(&mut image),
            1 => random.disturb_instantiation(relations, &mut instantiation),
            _ => {}
        }
        Input {
            file,
            node,
            schema: encode_schema(&image),
            instantiation: encode_instantiation(&instantiation),
        }
    }

    /// The input, for a failed comparison.
    fn text(&self) -> String {
        format!(
            "node {}\nfile {}\nschema {}\ninstantiation {}",
            self.node,
            to_hexadecimal(&self.file),
            to_hexadecimal(&self.schema),
            to_hexadecimal(&self.instantiation)
        )
    }
}

/// A slice of noise; one time in eight one byte too short.
fn slice(random: &mut Random, least: usize) -> Vec<u8> {
    let length = match random.below(8) {
        0 => least - 1,
        _ => least + random.below(40),
    };
    let noise = random.byte();
    vec![noise; length]
}

/// A work space, most often for 12 nodes.
fn work_space(random: &mut Random) -> Vec<u8> {
    match random.below(8) {
        0 => slice(random, WORK_SIZE),
        _ => slice(random, 12 * 1_024),
    }
}

/// How often there was a result, untyped or untypable, and each refusal.
struct Counts {
    results: usize,
    without: usize,
    refusals: [usize; 28],
}

impl Counts {
    /// Compares the function on so many inputs, which gives the answer in C, and counts.
    fn of(seed: u64, mut compare: impl FnMut(&mut Random, &Input) -> u8) -> Self {
        let mut random = Random::new(seed);
        let mut counts = Counts {
            results: 0,
            without: 0,
            refusals: [0; 28],
        };
        for _ in 0..INPUTS {
            let input = Input::new(&mut random);
            match compare(&mut random, &input) {
                0 => counts.results += 1,
                255 => counts.without += 1,
                number => counts.refusals[usize::from(number)] += 1,
            }
        }
        counts
    }

    /// Asserts that results and these refusals came up.
    fn assert_met(&self, refusals: &[usize]) {
        println!(
            "{} results, {} without, refusals {:?}",
            self.results, self.without, self.refusals
        );
        assert!(self.results >= INPUTS / 8, "{} results", self.results);
        for &number in refusals {
            assert!(self.refusals[number] > 0, "{number} did not come up");
        }
    }
}

/// The refusal of a number that a C function answered.
fn refusal(number: u8) -> Refusal {
    Refusal::try_from(number).expect("a refusal")
}

#[test]
fn accept_is_as_in_c() {
    let counts = Counts::of(1, |_, input| {
        let (mut relations, mut nodes) = (0, 0);
        let answer = engine::accept(&input.file, &mut relations, &mut nodes);
        let wanted = match answer {
            0 => Ok((relations, nodes)),
            number => Err(refusal(number)),
        };
        let given = accept(&input.file);
        let given = given.map(|file| (file.relation_count(), file.node_count()));
        assert_eq!(given, wanted, "{}", input.text());
        answer
    });
    counts.assert_met(&[2, 3, 4, 5, 7, 8, 10]);
}

#[test]
fn record_is_as_in_c() {
    let counts = Counts::of(2, |_, input| {
        let mut start = 0;
        let length = engine::record(&input.file, input.node, &mut start);
        let wanted = &input.file[start..start + length];
        match record(&input.file, input.node) {
            Ok(given) => {
                let (given, wanted) = (given.as_ptr_range(), wanted.as_ptr_range());
                assert_eq!(given, wanted, "{}", input.text());
                0
            }
            Err(refused) => {
                assert!(wanted.is_empty(), "{}", input.text());
                // The C function gives no number; Verdict has the same order of tests.
                let found = &mut Found::default();
                let answer = engine::verdict(&input.file, input.node, &mut [], &mut [], found);
                assert_eq!(refused.number(), answer, "{}", input.text());
                answer
            }
        }
    });
    counts.assert_met(&[2, 3, 4, 5, 7, 8, 10, 11]);
}

/// The bytes of a node: its map and its fields in bit order.
fn bytes_of(node: Node) -> Vec<u8> {
    match node {
        Node::Relation { relation } => vec![1, relation],
        Node::Binary { op, left, right } => {
            let code = match op {
                BinaryOp::Union => 1,
                BinaryOp::Difference => 2,
                BinaryOp::Join => 3,
                BinaryOp::Product => 4,
            };
            vec![14, left, right, code]
        }
        Node::WithSet { op, operand, set } => {
            let code = match op {
                SetOp::Selection => 5,
                SetOp::Projection => 6,
            };
            vec![26, operand, code, set as u8, (set >> 8) as u8]
        }
        Node::Renaming { operand, old, new } => vec![98, operand, old, new],
        Node::ProjectingOut { operand, old } => vec![34, operand, old],
    }
}

#[test]
fn read_node_is_as_in_c() {
    let counts = Counts::of(3, |random, _| {
        let (relations, number) = (random.between(1, 8), random.between(0, 63));
        let nodes = random.nodes(relations, number + 1);
        let mut bytes = encode_node(&nodes[usize::from(number)]);
        for _ in 0..random.below(3) {
            random.disturb(&mut bytes);
        }
        let word = engine::read_node(relations, number, &bytes);
        match read_node(relations, number, &bytes) {
            Ok((node, size)) => {
                assert_eq!((0, usize::from(word[1])), (word[0], size));
                assert_eq!(bytes_of(node), word[2..2 + size]);
                assert_eq!(node.record().bytes(), bytes_of(node));
            }
            Err(refused) => assert_eq!(refused.number(), word[0]),
        }
        word[0]
    });
    counts.assert_met(&[4, 5, 6, 7, 8, 9]);
}

#[test]
fn formula_is_as_in_c() {
    let counts = Counts::of(4, |random, input| {
        let mut work = work_space(random);
        let mut wanted_work = work.clone();
        let answer = engine::formula(&input.file, &mut wanted_work);
        match formula(&input.file, &mut work) {
            Ok(given) => {
                let filled = 1_024 * usize::from(input.file[1]);
                let is_same = answer == 0 && given.bytes() == &wanted_work[..filled];
                assert!(is_same, "{}", input.text());
            }
            Err(refused) => assert_eq!(refused.number(), answer, "{}", input.text()),
        }
        assert!(work == wanted_work, "{}", input.text());
        answer
    });
    counts.assert_met(&[4, 5, 10, 12]);
}

#[test]
fn verdict_is_as_in_c() {
    let counts = Counts::of(5, |random, input| {
        let (mut work, mut schema) = (work_space(random), slice(random, SCHEMA_SIZE));
        let (mut wanted_work, mut wanted_schema) = (work.clone(), schema.clone());
        let mut found = Found::default();
        let answer = engine::verdict(
            &input.file,
            input.node,
            &mut wanted_work,
            &mut wanted_schema,
            &mut found,
        );
        let Found { value, memberships } = found;
        let wanted = match answer {
            0 => Ok(Ok((&wanted_schema[..value], memberships))),
            UNTYPABLE => Ok(Err(value as u8)),
            number => Err(refusal(number)),
        };
        let given = verdict(&input.file, input.node, &mut work, &mut schema);
        let given = given.map(|verdict| match verdict {
            Verdict::Typable {
                witness,
                memberships,
            } => Ok((witness.bytes(), memberships)),
            Verdict::Untypable { attribute } => Err(attribute),
        });
        assert_eq!(given, wanted, "{}", input.text());
        assert!(work == wanted_work, "{}", input.text());
        assert!(schema == wanted_schema, "{}", input.text());
        answer
    });
    assert!(counts.without > 0);
    counts.assert_met(&[4, 5, 10, 11, 12, 13]);
}

#[test]
fn typing_is_as_in_c() {
    let counts = Counts::of(6, |random, input| {
        let mut out = slice(random, OUTPUT_SIZE);
        let mut wanted_out = out.clone();
        let (file, node, schema) = (&input.file, input.node, &input.schema);
        let mut value = 0;
        let answer = engine::typing(file, node, schema, &mut wanted_out, &mut value);
        let wanted = match answer {
            0 => Ok(Some(&wanted_out[..value])),
            UNTYPED => Ok(None),
            number => Err(refusal(number)),
        };
        let given = typing(file, node, schema, &mut out);
        let given = given.map(|typing| match typing {
            Typing::Typed(output) => Some(output.bytes()),
            Typing::Untyped => None,
        });
        assert_eq!(given, wanted, "{}", input.text());
        assert!(out == wanted_out, "{}", input.text());
        answer
    });
    assert!(counts.without > 0);
    counts.assert_met(&[4, 5, 10, 11, 13, 14, 15, 16, 17, 25]);
}

#[test]
fn apply_is_as_in_c() {
    let counts = Counts::of(7, |random, input| {
        let mut work = work_space(random);
        let (mut schema, mut out) = (slice(random, SCHEMA_SIZE), slice(random, OUTPUT_SIZE));
        let (mut wanted_work, mut wanted_schema, mut wanted_out) =
            (work.clone(), schema.clone(), out.clone());
        let (file, node, instantiation) = (&input.file, input.node, &input.instantiation);
        let mut lengths = Lengths::default();
        let answer = engine::apply(
            file,
            node,
            instantiation,
            &mut wanted_work,
            &mut wanted_schema,
            &mut wanted_out,
            &mut lengths,
        );
        let wanted = match answer {
            0 => {
                let image = &wanted_schema[..lengths.schema];
                Ok((image, &wanted_out[..lengths.output]))
            }
            number => Err(refusal(number)),
        };
        let given = apply(file, node, instantiation, &mut work, &mut schema, &mut out);
        let given = given.map(|applied| (applied.schema.bytes(), applied.output.bytes()));
        assert_eq!(given, wanted, "{}", input.text());
        let slices = (work, schema, out);
        let wanted_slices = (wanted_work, wanted_schema, wanted_out);
        assert!(slices == wanted_slices, "{}", input.text());
        answer
    });
    counts.assert_met(&[4, 5, 10, 11, 12, 13, 14, 15, 16, 17, 19, 20, 21, 26]);
}

#[test]
fn recover_is_as_in_c() {
    let counts = Counts::of(8, |random, input| {
        let mut work = work_space(random);
        let mut instantiation = slice(random, INSTANTIATION_SIZE);
        let (mut wanted_work, mut wanted_instantiation) = (work.clone(), instantiation.clone());
        let (file, node, schema) = (&input.file, input.node, &input.schema);
        let mut value = 0;
        let answer = engine::recover(
            file,
            node,
            schema,
            &mut wanted_work,
            &mut wanted_instantiation,
            &mut value,
        );
        let wanted = match answer {
            0 => Ok(Some(&wanted_instantiation[..value])),
            UNTYPED => Ok(None),
            number => Err(refusal(number)),
        };
        let given = recover(file, node, schema, &mut work, &mut instantiation);
        let given = given.map(|recovery| match recovery {
            Recovery::Recovered(recovered) => Some(recovered.bytes()),
            Recovery::Untyped => None,
        });
        assert_eq!(given, wanted, "{}", input.text());
        assert!(work == wanted_work, "{}", input.text());
        assert!(instantiation == wanted_instantiation, "{}", input.text());
        answer
    });
    assert!(counts.without > 0);
    counts.assert_met(&[4, 5, 10, 11, 12, 13, 14, 15, 16, 17, 25]);
}

#[test]
fn parse_query_is_as_in_c() {
    let counts = Counts::of(10, |random, _| {
        let relations = random.between(0, 9);
        let mut text = random.any_query(relations.clamp(1, 8)).text().into_bytes();
        for _ in 0..random.below(2) {
            random.disturb_text(&mut text);
        }
        let mut file = slice(random, LONGEST_FILE);
        let (mut wanted_file, mut size) = (file.clone(), 0);
        let answer = engine::parse_query(relations, &text, &mut wanted_file, &mut size);
        let wanted = match answer {
            0 => Ok(&wanted_file[..size]),
            number => Err(refusal(number)),
        };
        let given = parse_query(relations, &text, &mut file);
        let given = given.map(|query| query.bytes());
        let text = String::from_utf8_lossy(&text);
        assert_eq!(given, wanted, "{text}");
        assert!(file == wanted_file, "{text}");
        answer
    });
    counts.assert_met(&[2, 7, 9, 13, 22, 23, 24]);
}

/// A record for the node of the input: one that can stand for it, one time in two disturbed, and
/// now and then one of any node.
fn any_record(random: &mut Random, input: &Input) -> Vec<u8> {
    let relations = input.file.first().map_or(1, |&count| count.clamp(1, 8));
    let number = match random.below(8) {
        0 => random.between(0, 63),
        _ => input.node.min(63) as u8,
    };
    let mut bytes = encode_node(&random.mild_node(relations, number));
    if random.below(2) == 0 {
        random.disturb(&mut bytes);
    }
    bytes
}

#[test]
fn edit_is_as_in_c() {
    let counts = Counts::of(11, |random, input| {
        let bytes = any_record(random, input);
        let mut result = slice(random, LONGEST_FILE);
        let (mut wanted_result, mut size) = (result.clone(), 0);
        let (file, node) = (&input.file, input.node);
        let answer = engine::edit(file, node, &bytes, &mut wanted_result, &mut size);
        let wanted = match answer {
            0 => Ok(&wanted_result[..size]),
            number => Err(refusal(number)),
        };
        let given = edit(file, node, &bytes, &mut result);
        let given = given.map(|edited| edited.bytes());
        assert_eq!(given, wanted, "{}", input.text());
        assert!(result == wanted_result, "{}", input.text());
        answer
    });
    counts.assert_met(&[2, 3, 4, 5, 6, 7, 8, 9, 10, 11, 27]);
}

#[test]
fn preview_is_as_in_c() {
    let counts = Counts::of(12, |random, input| {
        let bytes = any_record(random, input);
        let mut work = work_space(random);
        let (mut wanted_work, mut previewed) = (work.clone(), Previewed::default());
        let (file, node) = (&input.file, input.node);
        let answer = engine::preview(file, node, &bytes, &mut wanted_work, &mut previewed);
        let (attribute, memberships) = (previewed.attribute, previewed.memberships);
        let wanted = match answer {
            0 => Ok(Preview::Typable { memberships }),
            UNTYPABLE => Ok(Preview::Untypable { attribute }),
            number => Err(refusal(number)),
        };
        let given = preview(file, node, &bytes, &mut work);
        assert_eq!(given, wanted, "{}", input.text());
        assert!(work == wanted_work, "{}", input.text());
        answer
    });
    assert!(counts.without > 0);
    counts.assert_met(&[2, 3, 4, 5, 6, 7, 8, 9, 10, 11, 12]);
}
