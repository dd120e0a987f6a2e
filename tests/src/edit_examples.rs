//! Edits of files with what Edit and Preview answer, worked by hand.

use crate::examples::{e1, from_hexadecimal};
use crate::extreme_inputs::longest_but_for;
use crate::reference::{encode_node, Node};

/// The memberships of the last node's witness, or the attribute with which it is untypable.
pub type Judgement = Result<u8, u8>;

/// A file with a record for one of its nodes, the edited file, and what is then said of the last
/// node.
pub struct EditCase {
    pub name: &'static str,
    pub file: Vec<u8>,
    pub node: usize,
    pub record: Vec<u8>,
    pub edited: Vec<u8>,
    pub judgement: Judgement,
}

/// A record that is refused as this node of E1.
pub struct RefusedRecord {
    pub name: &'static str,
    pub node: usize,
    pub record: Vec<u8>,
    pub refusal: u8,
}

/// The bytes of E1 before its last node.
const BEFORE_LAST: &str = "03 07 01 00 62 00 01 02 01 01 0e 01 02 01 01 02 0e 03 04 03";

/// Records for E1's last node.
const LAST_OF_E1: [(&str, &str, Judgement); 9] = [
    ("the selection itself", "1a 05 05 0c 00", Ok(3)),
    ("a projection on {2,3}", "1a 05 06 0c 00", Ok(3)),
    ("a projection on {2}", "1a 05 06 04 00", Ok(3)),
    ("a selection of all attributes", "1a 05 05 fe ff", Ok(16)),
    ("projecting out 2", "22 05 02", Ok(3)),
    ("a renaming of 3 into 4", "62 05 03 04", Ok(3)),
    ("a renaming of 2 into itself", "62 05 02 02", Err(2)),
    ("a product with itself", "0e 05 05 04", Err(2)),
    ("r2", "01 02", Ok(3)),
];

/// Records for the other nodes of E1: name, node, record, edited file.
const OTHERS_OF_E1: [(&str, usize, &str, &str, Judgement); 8] = [
    (
        "r2 for r0",
        0,
        "01 02",
        "03 07 01 02 62 00 01 02 01 01 0e 01 02 01 01 02 0e 03 04 03 1a 05 05 0c 00",
        Ok(5),
    ),
    (
        "projecting out for the renaming",
        1,
        "22 00 01",
        "03 07 01 00 22 00 01 01 01 0e 01 02 01 01 02 0e 03 04 03 1a 05 05 0c 00",
        Ok(4),
    ),
    (
        "r0 for r1",
        2,
        "01 00",
        "03 07 01 00 62 00 01 02 01 00 0e 01 02 01 01 02 0e 03 04 03 1a 05 05 0c 00",
        Err(1),
    ),
    (
        "a join for the union",
        3,
        "0e 01 02 03",
        "03 07 01 00 62 00 01 02 01 01 0e 01 02 03 01 02 0e 03 04 03 1a 05 05 0c 00",
        Ok(3),
    ),
    (
        "the union of the node before with itself",
        3,
        "0e 02 02 01",
        "03 07 01 00 62 00 01 02 01 01 0e 02 02 01 01 02 0e 03 04 03 1a 05 05 0c 00",
        Ok(3),
    ),
    (
        "r0 for r2",
        4,
        "01 00",
        "03 07 01 00 62 00 01 02 01 01 0e 01 02 01 01 00 0e 03 04 03 1a 05 05 0c 00",
        Ok(5),
    ),
    (
        "a product for the join",
        5,
        "0e 03 04 04",
        "03 07 01 00 62 00 01 02 01 01 0e 01 02 01 01 02 0e 03 04 04 1a 05 05 0c 00",
        Ok(3),
    ),
    (
        "projecting out for the join",
        5,
        "22 03 02",
        "03 07 01 00 62 00 01 02 01 01 0e 01 02 01 01 02 22 03 02 1a 05 05 0c 00",
        Err(2),
    ),
];

/// Edits of other files: name, file, node, record, edited file.
const OF_OTHERS: [(&str, &str, usize, &str, &str, Judgement); 7] = [
    (
        "E6 of another renaming",
        "01 02 01 00 62 00 01 02",
        1,
        "62 00 01 01",
        "01 02 01 00 62 00 01 01",
        Err(1),
    ),
    (
        "E7 of a join",
        "01 02 01 00 0e 00 00 03",
        1,
        "0e 00 00 04",
        "01 02 01 00 0e 00 00 04",
        Err(0),
    ),
    (
        "E7 without its product",
        "01 02 01 00 0e 00 00 04",
        1,
        "01 00",
        "01 02 01 00 01 00",
        Ok(1),
    ),
    (
        "E8 of a relation",
        "01 02 01 00 01 00",
        1,
        "1a 00 06 00 00",
        "01 02 01 00 1a 00 06 00 00",
        Ok(1),
    ),
    (
        "E10 with {1,2} selected",
        "04 09 01 00 01 01 0e 00 01 03 1a 02 05 02 00 01 02 0e 00 04 04 01 03 0e 05 06 02 \
         0e 03 07 03",
        3,
        "1a 02 05 06 00",
        "04 09 01 00 01 01 0e 00 01 03 1a 02 05 06 00 01 02 0e 00 04 04 01 03 0e 05 06 02 \
         0e 03 07 03",
        Ok(5),
    ),
    (
        "the only node",
        "08 01 01 00",
        0,
        "01 07",
        "08 01 01 07",
        Ok(8),
    ),
    (
        "the only node by itself",
        "01 01 01 00",
        0,
        "01 00",
        "01 01 01 00",
        Ok(1),
    ),
];

/// The edit that makes a file the longest there is: the only one of its nodes from 1 on that is a
/// relation gets a set. The attributes of the sets are in r7, and each other relation has one more
/// membership.
fn longest() -> [EditCase; 2] {
    [("the longest, node 1", 1), ("the longest, node 63", 63)].map(|(name, number)| {
        let (file, operand) = (longest_but_for(number), number - 1);
        let set = 0xfffe;
        let record = encode_node(&Node::Projection { operand, set });
        let node = usize::from(number);
        let place = 4 + 5 * (node - 1);
        let edited = [&file[..place], &record, &file[place + 2..]].concat();
        EditCase {
            name,
            file,
            node,
            record,
            edited,
            judgement: Ok(15 + 7),
        }
    })
}

/// All edits with their answers.
pub fn edit_cases() -> Vec<EditCase> {
    let last = LAST_OF_E1.map(|(name, record, judgement)| EditCase {
        name,
        file: e1().bytes,
        node: 6,
        record: from_hexadecimal(record),
        edited: from_hexadecimal(&format!("{BEFORE_LAST} {record}")),
        judgement,
    });
    let others = OTHERS_OF_E1.map(|(name, node, record, edited, judgement)| EditCase {
        name,
        file: e1().bytes,
        node,
        record: from_hexadecimal(record),
        edited: from_hexadecimal(edited),
        judgement,
    });
    let of_others = OF_OTHERS.map(|(name, file, node, record, edited, judgement)| EditCase {
        name,
        file: from_hexadecimal(file),
        node,
        record: from_hexadecimal(record),
        edited: from_hexadecimal(edited),
        judgement,
    });
    let written = last.into_iter().chain(others).chain(of_others);
    written.chain(longest()).collect()
}

/// Records that are refused: name, node of E1, record, refusal.
const REFUSED: [(&str, usize, &str, u8); 62] = [
    ("no byte", 6, "", 4),
    ("a relation cut", 6, "01", 4),
    ("a pair cut after its map", 6, "0e", 4),
    ("a pair cut after left", 6, "0e 05", 4),
    ("a pair cut after right", 6, "0e 05 04", 4),
    ("a set cut after its map", 6, "1a", 4),
    ("a set cut after the operand", 6, "1a 05", 4),
    ("a set cut after the code", 6, "1a 05 05", 4),
    ("a set cut within", 6, "1a 05 05 0c", 4),
    ("a renaming cut after the operand", 6, "62 05", 4),
    ("a renaming cut after old", 6, "62 05 01", 4),
    ("projecting out cut", 6, "22 05", 4),
    ("a pair cut, 4 before 8", 6, "0e 06 06", 4),
    ("a set cut, 4 before 6 and 9", 6, "1a 05 07 01", 4),
    ("a renaming cut, 4 before 9", 6, "62 05 00", 4),
    ("map 0 alone", 6, "00", 5),
    ("map 0", 6, "00 00 00 00 00 00", 5),
    ("map 3", 6, "03 00 00", 5),
    ("map 15", 6, "0f 00 00 00 01", 5),
    ("map 129", 6, "81 00", 5),
    ("map 255 alone", 6, "ff", 5),
    ("code 0 of a pair", 6, "0e 05 05 00", 6),
    ("code 5 of a pair", 6, "0e 05 05 05", 6),
    ("code 4 of a set", 6, "1a 05 04 0c 00", 6),
    ("code 7 of a set", 6, "1a 05 07 0c 00", 6),
    ("code wrong, 6 before 9", 6, "1a 05 00 01 00", 6),
    ("code wrong, 6 before 10", 6, "0e 05 05 06 00", 6),
    ("relation m", 6, "01 03", 7),
    ("relation 255", 6, "01 ff", 7),
    ("relation m of node 0", 0, "01 03", 7),
    ("relation m, 7 before 10", 6, "01 03 00", 7),
    ("left its own number", 6, "0e 06 05 01", 8),
    ("right its own number", 6, "0e 05 06 01", 8),
    ("the operand of a set its own", 6, "1a 06 05 0c 00", 8),
    ("the operand of a renaming its own", 6, "62 06 01 02", 8),
    ("the operand projected out its own", 6, "22 06 01", 8),
    ("operand n", 6, "22 07 01", 8),
    ("operand 255", 6, "22 ff 01", 8),
    ("left of node 3 its own number", 3, "0e 03 02 01", 8),
    ("right of node 3 a later node", 3, "0e 02 05 01", 8),
    ("the operand of node 5 its own", 5, "22 05 02", 8),
    ("a pair as node 0", 0, "0e 00 00 01", 8),
    ("a set as node 0", 0, "1a 00 05 0c 00", 8),
    ("a renaming as node 0", 0, "62 00 01 02", 8),
    ("projecting out as node 0", 0, "22 00 01", 8),
    ("an operand wrong, 8 before 6", 6, "0e 05 06 00", 8),
    ("an operand wrong, 8 before 9", 6, "22 06 00", 8),
    ("an operand wrong, 8 before 10", 6, "22 06 01 00", 8),
    ("bit 0 of a set", 6, "1a 05 05 0d 00", 9),
    ("old 0", 6, "62 05 00 02", 9),
    ("old 16", 6, "62 05 10 02", 9),
    ("new 0", 6, "62 05 02 00", 9),
    ("new 16", 6, "62 05 02 10", 9),
    ("0 projected out", 6, "22 05 00", 9),
    ("16 projected out", 6, "22 05 10", 9),
    ("bit 0 of a set, 9 before 10", 6, "1a 05 05 01 00 00", 9),
    ("a byte after a relation", 6, "01 02 00", 10),
    ("a byte after a pair", 6, "0e 05 05 01 00", 10),
    ("a byte after a set", 6, "1a 05 05 0c 00 00", 10),
    ("a byte after a renaming", 6, "62 05 01 02 ff", 10),
    ("a byte after projecting out", 6, "22 05 02 00", 10),
    ("a node after a relation", 6, "01 02 01 02", 10),
];

/// All records that are refused.
pub fn refused_records() -> Vec<RefusedRecord> {
    let refused = |(name, node, record, refusal)| RefusedRecord {
        name,
        node,
        record: from_hexadecimal(record),
        refusal,
    };
    REFUSED.map(refused).into()
}
