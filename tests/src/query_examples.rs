//! Queries typed as text with their answers.

use crate::examples::from_hexadecimal;
use crate::query_trees::{relation, Query};
use crate::reference::LONGEST_TEXT;

/// A text with its answer for so many relations.
pub struct QueryCase {
    pub name: &'static str,
    pub relations: u8,
    pub text: Vec<u8>,
    /// The expression file, or the first refusal.
    pub answer: Result<Vec<u8>, u8>,
}

/// E1 as text.
pub const E1_TEXT: &str = "S[2,3]((N[1>2]r0+r1)*r2)";

/// The examples in which no node is used twice, as text: name, m, text and file.
pub const EXAMPLES: [(&str, u8, &str, &str); 6] = [
    (
        "E1",
        3,
        E1_TEXT,
        "03 07 01 00 62 00 01 02 01 01 0e 01 02 01 01 02 0e 03 04 03 1a 05 05 0c 00",
    ),
    (
        "E5",
        1,
        "S[1,2]P[2,3]r0",
        "01 03 01 00 1a 00 06 0c 00 1a 01 05 06 00",
    ),
    ("E6", 1, "N[1>1]r0", "01 02 01 00 62 00 01 01"),
    ("E8", 1, "P[]r0", "01 02 01 00 1a 00 06 00 00"),
    (
        "E9",
        2,
        "(r0+P[1]r1)",
        "02 04 01 00 01 01 1a 01 06 02 00 0e 00 02 01",
    ),
    (
        "tie",
        4,
        "S[1](((r0+r1)*r2)*r3)",
        "04 08 01 00 01 01 0e 00 01 01 01 02 0e 02 03 03 01 03 0e 04 05 03 1a 06 05 02 00",
    ),
];

/// Other queries: name, m, text and file. E7 and E10 use a node twice, which in a text are two.
const FILES: [(&str, u8, &str, &str); 20] = [
    ("E7", 1, "(r0#r0)", "01 03 01 00 01 00 0e 00 01 04"),
    (
        "E10",
        4,
        "(S[1](r0*r1)*((r0#r2)-r3))",
        "04 0a 01 00 01 01 0e 00 01 03 1a 02 05 02 00 01 00 01 02 0e 04 05 04 01 03 \
         0e 06 07 02 0e 03 08 03",
    ),
    ("a relation", 1, "r0", "01 01 01 00"),
    ("the last relation", 8, "r7", "08 01 01 07"),
    ("a union", 2, "(r0+r1)", "02 03 01 00 01 01 0e 00 01 01"),
    (
        "a difference",
        2,
        "(r0-r1)",
        "02 03 01 00 01 01 0e 00 01 02",
    ),
    ("a join", 2, "(r1*r0)", "02 03 01 01 01 00 0e 00 01 03"),
    ("a product", 2, "(r1#r0)", "02 03 01 01 01 00 0e 00 01 04"),
    ("a selection", 1, "S[1]r0", "01 02 01 00 1a 00 05 02 00"),
    ("a projection", 1, "P[1,10]r0", "01 02 01 00 1a 00 06 02 04"),
    ("an empty list", 1, "S[]r0", "01 02 01 00 1a 00 05 00 00"),
    (
        "all attributes",
        1,
        "P[1,2,3,4,5,6,7,8,9,10,11,12,13,14,15]r0",
        "01 02 01 00 1a 00 06 fe ff",
    ),
    ("a renaming", 1, "N[15>1]r0", "01 02 01 00 62 00 0f 01"),
    ("projecting out", 1, "D[10]r0", "01 02 01 00 22 00 0a"),
    (
        "a prefix of a pair",
        1,
        "D[1](r0+r0)",
        "01 04 01 00 01 00 0e 00 01 01 22 02 01",
    ),
    (
        "prefixes in a pair",
        1,
        "(D[1]r0+D[2]r0)",
        "01 05 01 00 22 00 01 01 00 22 02 02 0e 01 03 01",
    ),
    (
        "a pair on the left",
        1,
        "((r0+r0)-r0)",
        "01 05 01 00 01 00 0e 00 01 01 01 00 0e 02 03 02",
    ),
    (
        "a pair on the right",
        1,
        "(r0+(r0-r0))",
        "01 05 01 00 01 00 01 00 0e 01 02 02 0e 00 03 01",
    ),
    (
        "pairs on both sides",
        1,
        "((r0+r0)*(r0-r0))",
        "01 07 01 00 01 00 0e 00 01 01 01 00 01 00 0e 03 04 02 0e 02 05 03",
    ),
    (
        "a prefix of each kind",
        1,
        "S[1]P[2]N[3>4]D[5]r0",
        "01 05 01 00 22 00 05 62 01 03 04 1a 02 06 04 00 1a 03 05 02 00",
    ),
];

/// Texts that are not in the language, with spaces between them.
const NOT_IN_LANGUAGE: &str = "
    r R0 0 1 ra r-1 r+1 rr0 r00 r01 r10 r0r1 r0+r1 r0,r1 + ( ) [ ] , >
    () (r0) ((r0)) (r0+) (+r0) (+) (r0+r1 r0+r1) (r0+r1)) ((r0+r1) ((r0+r1)-r2 (r0r1) (r0++r1)
    (r0+r1+r2) (r0/r1) (r0&r1) (r0<r1) [r0+r1] (r0,r1) (r0+r1)r2 (r0+r1](
    S S[ S[] S[1 S[1] S[1]r Sr0 S1r0 S]r0 S[1r0 S1]r0 S(1)r0 S{1}r0 s[1]r0 S[1]S[2]
    S[,]r0 S[1,]r0 S[,1]r0 S[1,,2]r0 S[1;2]r0 S[1>2]r0 S[-1]r0 S[[1]]r0 S[1]]r0
    S[2,1]r0 S[1,1]r0 S[0,0]r0 S[10,9]r0 S[16,15]r0 S[01]r0 S[00]r0 S[1,02]r0 S[100]r0 S[1,100]r0
    P P[ P[1] Pr0 P[2,1]r0 P[1,1]r0 P[01]r0 P[100]r0 P[1>2]r0
    N N[ N[]r0 N[1]r0 N[1,2]r0 N[1>]r0 N[>2]r0 N[>]r0 N[1>2>3]r0 N[1>>2]r0 N[01>2]r0 N[1>02]r0
    N[100>1]r0 N[1>100]r0 N[1>2] N1>2r0
    D D[ D[]r0 D[1,2]r0 D[1>2]r0 D[00]r0 D[01]r0 D[100]r0 D[1] D1r0 D[1](r0
";

/// The same with spaces and other bytes in them, and the empty text.
const NOT_IN_LANGUAGE_BY_A_BYTE: [&str; 14] = [
    "",
    " ",
    " r0",
    "r 0",
    "r0 ",
    "r0\n",
    "r0\0",
    "\0r0",
    "\0",
    "(r0 + r1)",
    "S[1, 2]r0",
    "S[ ]r0",
    "S[1] r0",
    "r\u{660}",
];

/// Texts of the language with a number outside its range, for m 3.
const FAULTS: [(&str, u8); 33] = [
    ("r3", 7),
    ("r8", 7),
    ("r9", 7),
    ("(r0+r3)", 7),
    ("(r3+r0)", 7),
    ("S[1]r3", 7),
    ("S[]r3", 7),
    ("S[0]r0", 9),
    ("S[16]r0", 9),
    ("S[99]r0", 9),
    ("S[0,1]r0", 9),
    ("P[1,16]r0", 9),
    ("P[15,16]r0", 9),
    ("P[16,17]r0", 9),
    ("N[0>1]r0", 9),
    ("N[1>0]r0", 9),
    ("N[16>1]r0", 9),
    ("N[1>16]r0", 9),
    ("N[99>99]r0", 9),
    ("D[0]r0", 9),
    ("D[16]r0", 9),
    ("D[99]r0", 9),
    ("S[0]r3", 9),
    ("P[16]r3", 9),
    ("N[0>1]r3", 9),
    ("N[1>0]r3", 9),
    ("D[0]r3", 9),
    ("(r3+D[0]r0)", 7),
    ("(D[0]r0+r3)", 9),
    ("(r0+S[1](r3-D[0]r0))", 7),
    ("(r0+S[1](D[0]r0-r3))", 9),
    ("((r0*r9)+S[0]r0)", 7),
    ("S[20](r9*(r8#D[0]r7))", 9),
];

/// So many projections of nothing, over r0.
pub fn nested(count: usize) -> Query {
    (0..count).fold(relation(0), |query, _| query.with_set('P', []))
}

/// Pairs of a pair and r0, so many, on the left or on the right.
pub fn nested_pairs(count: usize, on_the_left: bool) -> Query {
    (0..count).fold(relation(0), |query, _| match on_the_left {
        true => query.pair('+', relation(0)),
        false => relation(0).pair('+', query),
    })
}

/// A query of so many bytes, 191 to 1,262, and 64 nodes: 63 selections over r0, with lists of up
/// to nine attributes.
pub fn of_length(length: usize) -> Query {
    let mut query = relation(0);
    let mut rest = length - 2;
    for left in (1..=63).rev() {
        // The bytes of the list: as many as are left over, at most 17.
        let more = (rest - 3 * left).min(17);
        let count = more.div_ceil(2) as u8;
        let list: Vec<u8> = match more % 2 {
            0 if more > 0 => (1..count).chain([10]).collect(),
            _ => (1..=count).collect(),
        };
        query = query.with_set('S', list);
        rest = length - query.text().len();
    }
    query
}

/// Queries at the limits of length, depth and number of nodes.
pub fn extreme_queries() -> Vec<Query> {
    let mut queries: Vec<Query> = [62, 63, 64, 65, 169, 170, 171].map(nested).into();
    for on_the_left in [true, false] {
        queries.extend([31, 32, 101, 102, 103].map(|count| nested_pairs(count, on_the_left)));
    }
    queries.extend([510, 511, 512, 513, 514].map(of_length));
    queries
}

/// Texts that are not in the language, of 511 to 513 bytes: one part again and again.
pub fn extreme_texts() -> Vec<Vec<u8>> {
    let mut texts = Vec::new();
    for length in LONGEST_TEXT - 1..=LONGEST_TEXT + 1 {
        for part in [
            "(", ")", "r", "r0", "S[", "S[1,", "P[]", "N[1>2]", "D[1]", "(r0+", "1", "[",
        ] {
            let mut text = part.repeat(length);
            text.truncate(length);
            texts.push(text.into_bytes());
        }
    }
    texts
}

fn case(name: &'static str, relations: u8, text: &str, answer: Result<Vec<u8>, u8>) -> QueryCase {
    QueryCase {
        name,
        relations,
        text: text.into(),
        answer,
    }
}

/// Queries of over 64 nodes; with wrong numbers, which are tested later; and with a byte too
/// many, which is tested before.
fn cases_of_too_many_nodes() -> Vec<QueryCase> {
    let mut cases = Vec::new();
    for count in [64, 169, 170, 171] {
        let text = nested(count).text();
        let wrong = text.replace("r0", "r9").replacen("P[]", "P[0]", 1);
        for (text, refusal) in [(text.clone(), 24), (wrong, 24), (text + ")", 22)] {
            let answer = match text.len() > LONGEST_TEXT {
                true => 23,
                false => refusal,
            };
            cases.push(case("over 64 nodes", 1, &text, Err(answer)));
        }
    }
    cases
}

/// All texts of known answers.
pub fn query_cases() -> Vec<QueryCase> {
    let mut cases = cases_of_too_many_nodes();
    for (name, relations, text, file) in EXAMPLES.into_iter().chain(FILES) {
        cases.push(case(name, relations, text, Ok(from_hexadecimal(file))));
    }
    let others = NOT_IN_LANGUAGE.split_whitespace();
    for text in others.chain(NOT_IN_LANGUAGE_BY_A_BYTE) {
        cases.push(case("not in the language", 3, text, Err(22)));
    }
    for (text, refusal) in FAULTS {
        cases.push(case("a number outside its range", 3, text, Err(refusal)));
    }
    for relations in [0, 9, 10, 128, 255] {
        for text in [E1_TEXT, "r9", "(", &"P[]".repeat(200)] {
            cases.push(case("m outside its range", relations, text, Err(2)));
        }
    }
    for query in extreme_queries() {
        cases.push(case("extreme", 1, &query.text(), query.answer(1)));
    }
    cases
}
