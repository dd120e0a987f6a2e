//! The program `print_agreement`, which runs Rattle's `agreeing_bytes`, against the reference bit by
//! bit, and against what Formula stores. Needs the program.
//!
//! Its input is groups of four bytes: the allowed and the output byte of the left operand, then those
//! of the right one. It prints the allowed and the output byte of the result for each group.

use type_formula_tests::alone;
use type_formula_tests::programs;
use type_formula_tests::pseudorandom::Random;
use type_formula_tests::reference::{
    pair_over, read_file, Node, Pair, COLUMNS, COLUMN_LENGTH, FORMULA_LENGTH, OUTPUT_START,
};

/// The allowed and the output byte of the left operand, then those of the right one.
type Group = [u8; 4];

/// Any four bytes.
fn any_group(random: &mut Random) -> Group {
    (random.word() as u32).to_le_bytes()
}

/// The groups that the program takes at most.
const MOST: usize = 16_384;

/// What the program prints for these groups.
fn printed(groups: &[Group]) -> Vec<Pair> {
    let mut pairs = Vec::with_capacity(groups.len());
    for groups in groups.chunks(MOST) {
        let bytes = programs::run("print_agreement", &groups.concat());
        assert_eq!(bytes.len(), 2 * groups.len());
        pairs.extend(bytes.chunks_exact(2).map(|pair| [pair[0], pair[1]]));
    }
    pairs
}

/// The operators whose step is the agreement, over the nodes 0 and 1.
const OPERATORS: [Node; 2] = [
    Node::Union { left: 0, right: 1 },
    Node::Difference { left: 0, right: 1 },
];

/// Compares what the program prints with the reference, for each operator.
fn compare(groups: &[Group]) {
    for (group, given) in groups.iter().zip(printed(groups)) {
        let [left_allowed, left_output, right_allowed, right_output] = *group;
        let operands = [[left_allowed, left_output], [right_allowed, right_output]];
        for operator in &OPERATORS {
            let wanted = pair_over(operator, operands);
            assert_eq!(given, wanted, "{group:02x?}, {operator:?}");
        }
    }
}

/// The bits of a combination, a number below 16, each at this place of its byte.
fn at_place(combination: u8, place: usize) -> Group {
    [0, 1, 2, 3].map(|bit| (combination >> bit & 1) << place)
}

/// The group with the four bits at a place exchanged for those of a combination.
fn with_bits(mut group: Group, place: usize, combination: u8) -> Group {
    for (byte, bit) in group.iter_mut().zip(at_place(combination, place)) {
        *byte = *byte & !(1 << place) | bit;
    }
    group
}

/// Document 02, Point 3: of the 16 combinations two are allowed, both operands with the
/// attribute and both without.
fn pair_of(combination: u8) -> Pair {
    match at_place(combination, 0) {
        [1, 0, 1, 0] => [1, 0],
        [1, 1, 1, 1] => [1, 1],
        _ => [0, 0],
    }
}

#[test]
fn all_combinations_at_every_place_alone() {
    for place in 0..8 {
        let groups: Vec<Group> = (0..16).map(|each| at_place(each, place)).collect();
        for (combination, given) in (0..16).zip(printed(&groups)) {
            let wanted = pair_of(combination).map(|bit| bit << place);
            assert_eq!(given, wanted, "{combination:04b} at {place}");
        }
        compare(&groups);
    }
}

#[test]
fn all_combinations_at_every_place_among_other_bits() {
    let mut random = Random::new(330);
    let mut groups = Vec::new();
    for round in 0..64 {
        let others = match round {
            0 => [0xff; 4],
            _ => any_group(&mut random),
        };
        for place in 0..8 {
            groups.extend((0..16).map(|each| with_bits(others, place, each)));
        }
    }
    let given = printed(&groups);
    for (k, pair) in given.iter().enumerate() {
        let (combination, place) = ((k % 16) as u8, k / 16 % 8);
        let at = pair.map(|byte| byte >> place & 1);
        assert_eq!(at, pair_of(combination), "{:02x?} at {place}", groups[k]);
    }
    compare(&groups);
}

/// Every two combinations at every two places, over none and over all other bits: what stands
/// at one place changes nothing at another.
#[test]
fn two_combinations_at_two_places() {
    let mut groups = Vec::new();
    for others in [[0; 4], [0xff; 4]] {
        for (low, high) in (0..8).flat_map(|high| (0..high).map(move |low| (low, high))) {
            for pair in 0..=255 {
                let group = with_bits(others, low, pair % 16);
                groups.push(with_bits(group, high, pair / 16));
            }
        }
    }
    compare(&groups);
}

#[test]
fn random_bytes() {
    let mut random = Random::new(331);
    let groups: Vec<Group> = (0..64 * MOST).map(|_| any_group(&mut random)).collect();
    let outside = |group: &&Group| group[1] & !group[0] != 0 || group[3] & !group[2] != 0;
    let outside = groups.iter().filter(outside).count();
    println!("{outside} of {} with output bits not allowed", groups.len());
    assert!(outside > groups.len() / 2);
    compare(&groups);
}

/// The pairs of a node's formula in the work space, in the order of columns and bytes.
fn pairs(work: &[u8], node: u8) -> impl Iterator<Item = Pair> + '_ {
    let formula = &work[usize::from(node) * FORMULA_LENGTH..][..FORMULA_LENGTH];
    (0..COLUMNS * OUTPUT_START).map(move |k| {
        let column = &formula[k / OUTPUT_START * COLUMN_LENGTH..];
        [
            column[k % OUTPUT_START],
            column[OUTPUT_START + k % OUTPUT_START],
        ]
    })
}

#[test]
fn formula_stores_the_agreement_of_the_operands_columns() {
    let mut random = Random::new(332);
    let (mut groups, mut wanted) = (Vec::new(), Vec::new());
    for round in 0..200 {
        let relations = random.between(1, 8);
        let file = match round % 2 {
            0 => random.accepted_file(relations, 40),
            _ => random.mild_file(relations, 40),
        };
        let work = alone::formulas(&file);
        let nodes = read_file(&file).expect("accepted").nodes;
        for (k, node) in (0..).zip(&nodes) {
            if let Node::Union { left, right } | Node::Difference { left, right } = *node {
                let operands = pairs(&work, left).zip(pairs(&work, right));
                groups.extend(operands.map(|(left, right)| [left[0], left[1], right[0], right[1]]));
                wanted.extend(pairs(&work, k));
            }
        }
    }
    println!("{} pairs of unions and differences", groups.len());
    assert!(groups.len() > 200 * COLUMNS * OUTPUT_START);
    assert!(printed(&groups) == wanted);
}

/// Bytes after the last whole group are not looked at.
#[test]
fn whole_groups_alone_are_answered() {
    let bytes = [0xff, 0x0f, 0xff, 0x33, 0xff, 0xff, 0xff];
    for length in 0..=bytes.len() {
        let given = programs::run("print_agreement", &bytes[..length]);
        let wanted: &[u8] = if length < 4 { &[] } else { &[0xc3, 0x03] };
        assert_eq!(given, wanted, "{length}");
    }
}
