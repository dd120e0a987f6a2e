//! Examples of documents 01 and 02 with the formula, verdict, typings and listing of their last
//! node.

use crate::examples::{e10_nodes, e1_nodes};
use crate::reference::{
    encode_file, Formula, Node, COLUMNS, COLUMN_LENGTH, FORMULA_LENGTH, OUTPUT_START,
};

/// An example and what is known of its last node. Columns that document 01 does not
/// state follow from its rules.
pub struct FormulaExample {
    pub name: &'static str,
    pub relations: u8,
    pub nodes: Vec<Node>,
    /// Columns with their allowed subsets, `+` where in the output, `-` where not.
    pub columns: &'static [(usize, &'static str)],
    /// The allowed subsets of each column that is not listed.
    pub other_columns: &'static str,
    /// The witness as hexadecimal pairs and how many memberships it has, or the attribute with
    /// which the node is untypable.
    pub verdict: Result<(&'static str, u8), u8>,
    /// Schemas with the output record under them, none if untyped; hexadecimal pairs.
    pub typings: &'static [(&'static str, Option<&'static str>)],
    /// The text that the listing program prints.
    pub listing: &'static str,
}

impl FormulaExample {
    /// The expression file.
    pub fn bytes(&self) -> Vec<u8> {
        encode_file(self.relations, &self.nodes)
    }

    /// The number of the last node.
    pub fn last(&self) -> usize {
        self.nodes.len() - 1
    }

    /// The text of a column.
    fn column(&self, column: usize) -> &'static str {
        let listed = self.columns.iter().find(|(number, _)| *number == column);
        listed.map_or(self.other_columns, |(_, text)| text)
    }

    /// The formula of the last node.
    pub fn formula(&self) -> Formula {
        let mut formula = [0; FORMULA_LENGTH];
        for column in 0..COLUMNS {
            let start = column * COLUMN_LENGTH;
            for item in self.column(column).split_whitespace() {
                let s = usize::from_str_radix(&item[..2], 16).expect("a subset");
                formula[start + s / 8] |= 1 << (s % 8);
                if item.ends_with('+') {
                    formula[start + OUTPUT_START + s / 8] |= 1 << (s % 8);
                }
            }
        }
        formula
    }
}

fn relation(relation: u8) -> Node {
    Node::Relation { relation }
}

fn projection(operand: u8, set: u16) -> Node {
    Node::Projection { operand, set }
}

/// The text that the listing program prints for E1, as document 01 has it.
pub const E1_LISTING: &str = "\
node 6 typable
r0: 03 07
r1: 03 07
r2: 04 07
out: 03 04 07
a1: 01- 05+
a2: 02+ 06+
a3: 03+ 04+ 07+
";

/// The witness of E1.
pub const E1_WITNESS: &str = "02 00 04 00 08 00";

/// The schema of E2, in which r2 has no attribute.
pub const E2_SCHEMA: &str = "0a 00 0c 00 00 00";

/// The same with attribute 4 in r2, to which E3 and E4 add.
pub const FILLED_SCHEMA: &str = "0a 00 0c 00 10 00";

/// The columns of E1's last node: the first byte of the allowed and of the output
/// subsets; all other bytes are zero.
fn e1_columns() -> [[u8; COLUMN_LENGTH]; COLUMNS] {
    let mut columns = [[0; COLUMN_LENGTH]; COLUMNS];
    for (number, column) in columns.iter_mut().enumerate() {
        (column[0], column[OUTPUT_START]) = match number {
            1 => (0x22, 0x20),
            2 => (0x44, 0x44),
            3 => (0x98, 0x98),
            _ => (0x99, 0x98),
        };
    }
    columns
}

/// Asserts that the work space holds these columns at the place of E1's last node.
pub fn assert_e1_columns(work: &[u8]) {
    for (column, wanted) in e1_columns().iter().enumerate() {
        let start = 6 * FORMULA_LENGTH + column * COLUMN_LENGTH;
        let given = &work[start..start + COLUMN_LENGTH];
        assert_eq!(given, wanted, "column {column}");
    }
}

/// E1 with its witness.
fn e1() -> FormulaExample {
    FormulaExample {
        name: "E1",
        relations: 3,
        nodes: e1_nodes(),
        columns: &[(1, "01- 05+"), (2, "02+ 06+"), (3, "03+ 04+ 07+")],
        other_columns: "00- 03+ 04+ 07+",
        verdict: Ok((E1_WITNESS, 3)),
        typings: &[
            (E1_WITNESS, Some("0c 00")),
            ("0a 00 0d 00 01 14 00 10 00", None),
            ("0a 00 0c 00 01 00 01 14 00", Some("0d 00 01 14 00")),
            ("0b 00 01 14 00 0c 00 01 00 01 14 00", None),
            (
                "0b 00 01 14 00 0d 00 01 14 00 01 00 01 14 00",
                Some("0d 00 01 14 00"),
            ),
            (
                "0b 00 02 10 00 ff ff 0d 00 02 10 00 ff ff 01 00 01 00 01",
                Some("0d 00 03 10 00 00 01 ff ff"),
            ),
            ("0a 00 0c 00 fe ff", Some("fe ff")),
            ("fa ff fc ff 10 00", Some("fc ff")),
            ("08 00 0c 00 10 00", None),
            ("0e 00 0c 00 10 00", None),
            ("0a 00 0e 00 10 00", None),
            ("02 00 04 00 10 00", None),
            ("10 00 10 00 10 00", None),
        ],
        listing: E1_LISTING,
    }
}

/// E5, selection {1,2} of projection {2,3} of r0.
fn e5() -> FormulaExample {
    let selection = Node::Selection {
        operand: 1,
        set: 0b110,
    };
    FormulaExample {
        name: "E5",
        relations: 1,
        nodes: vec![relation(0), projection(0, 0b1100), selection],
        columns: &[(1, ""), (2, "01+"), (3, "01+")],
        other_columns: "00- 01-",
        verdict: Err(1),
        typings: &[("0c 00", None), ("0e 00", None), ("fe ff", None)],
        listing: "\
node 2 untypable
r0: 01
out:
a1:
a2: 01+
a3: 01+
",
    }
}

/// E6, renaming 1 into 1 of r0.
fn e6() -> FormulaExample {
    let renaming = Node::Renaming {
        operand: 0,
        old: 1,
        new: 1,
    };
    FormulaExample {
        name: "E6",
        relations: 1,
        nodes: vec![relation(0), renaming],
        columns: &[(1, "")],
        other_columns: "00- 01+",
        verdict: Err(1),
        typings: &[("02 00", None), ("04 00", None), ("06 00", None)],
        listing: "\
node 1 untypable
r0: 01
out: 01
a1:
",
    }
}

/// E7, r0 product r0.
fn e7() -> FormulaExample {
    FormulaExample {
        name: "E7",
        relations: 1,
        nodes: vec![relation(0), Node::Product { left: 0, right: 0 }],
        columns: &[],
        other_columns: "00-",
        verdict: Err(0),
        typings: &[("02 00", None), ("00 80", None), ("01 00 01 14 00", None)],
        listing: "\
node 1 untypable
r0:
out:
",
    }
}

/// E8, projection {} of r0.
fn e8() -> FormulaExample {
    FormulaExample {
        name: "E8",
        relations: 1,
        nodes: vec![relation(0), projection(0, 0)],
        columns: &[],
        other_columns: "00- 01-",
        verdict: Ok(("01 00 01 10 00", 1)),
        typings: &[
            ("01 00 01 10 00", Some("00 00")),
            ("02 00", Some("00 00")),
            ("fe ff", Some("00 00")),
            ("ff ff 02 10 00 ff ff", Some("00 00")),
        ],
        listing: "\
node 1 typable
r0: 01
out:
",
    }
}

/// E9, r0 union projection {1} of r1.
fn e9() -> FormulaExample {
    let union = Node::Union { left: 0, right: 2 };
    FormulaExample {
        name: "E9",
        relations: 2,
        nodes: vec![relation(0), relation(1), projection(1, 0b10), union],
        columns: &[(1, "03+")],
        other_columns: "00- 02-",
        verdict: Ok(("02 00 02 00", 2)),
        typings: &[
            ("02 00 02 00", Some("02 00")),
            ("02 00 03 00 01 14 00", Some("02 00")),
            ("02 00 fe ff", Some("02 00")),
            ("03 00 01 14 00 03 00 01 14 00", None),
            ("03 00 01 14 00 02 00", None),
            ("02 00 04 00", None),
            ("04 00 02 00", None),
            ("06 00 06 00", None),
        ],
        listing: "\
node 3 typable
r0:
r1: 02
out:
a1: 03+
",
    }
}

/// E10, selection {1} of (r0 join r1), join ((r0 product r2) minus r3).
fn e10() -> FormulaExample {
    FormulaExample {
        name: "E10",
        relations: 4,
        nodes: e10_nodes(),
        columns: &[(1, "02+ 09+ 0b+ 0e+")],
        other_columns: "00- 02+ 09+ 0b+ 0c+ 0e+",
        verdict: Ok((
            "01 00 01 10 00 02 00 01 00 01 11 00 01 00 02 10 00 11 00",
            5,
        )),
        typings: &[
            (
                "01 00 01 10 00 02 00 01 00 01 11 00 01 00 02 10 00 11 00",
                Some("03 00 02 10 00 11 00"),
            ),
            (
                "02 00 01 00 01 10 00 01 00 01 11 00 03 00 01 11 00",
                Some("03 00 02 10 00 11 00"),
            ),
            (
                "01 00 01 10 00 04 00 01 00 01 11 00 01 00 02 10 00 11 00",
                None,
            ),
            ("02 00 04 00 02 00 02 00", None),
            ("01 00 01 10 00 04 00 02 00 03 00 01 10 00", None),
            ("04 00 02 00 04 00 04 00", None),
        ],
        listing: "\
node 8 typable
r0: 09 0b
r1: 02 0b 0e
r2: 0c 0e
r3: 09 0b 0c 0e
out: 02 09 0b 0c 0e
a1: 02+ 09+ 0b+ 0e+
",
    }
}

/// Selection {1} of ((r0 union r1) join r2) join r3: attribute 1 may be in any part of a partition
/// of the relations; the lowest subset wins, and then the lower variables.
fn tie() -> FormulaExample {
    let (union, join) = (
        Node::Union { left: 0, right: 1 },
        Node::NaturalJoin { left: 2, right: 3 },
    );
    let (left, right) = (4, 5);
    let (operand, set) = (6, 0b10);
    FormulaExample {
        name: "tie",
        relations: 4,
        nodes: vec![
            relation(0),
            relation(1),
            union,
            relation(2),
            join,
            relation(3),
            Node::NaturalJoin { left, right },
            Node::Selection { operand, set },
        ],
        columns: &[(1, "03+ 04+ 07+ 08+ 0b+ 0c+ 0f+")],
        other_columns: "00- 03+ 04+ 07+ 08+ 0b+ 0c+ 0f+",
        verdict: Ok(("02 00 02 00 01 00 01 10 00 01 00 01 11 00", 4)),
        typings: &[
            (
                "02 00 02 00 01 00 01 10 00 01 00 01 11 00",
                Some("03 00 02 10 00 11 00"),
            ),
            (
                "01 00 01 10 00 01 00 01 10 00 02 00 01 00 01 11 00",
                Some("03 00 02 10 00 11 00"),
            ),
            ("02 00 04 00 02 00 02 00", None),
            ("04 00 04 00 08 00 08 00", None),
        ],
        listing: "\
node 7 typable
r0: 03 07 0b 0f
r1: 03 07 0b 0f
r2: 04 07 0c 0f
r3: 08 0b 0c 0f
out: 03 04 07 08 0b 0c 0f
a1: 03+ 04+ 07+ 08+ 0b+ 0c+ 0f+
",
    }
}

/// E1, E5 to E10, and one with a tie.
pub fn formula_examples() -> Vec<FormulaExample> {
    vec![e1(), e5(), e6(), e7(), e8(), e9(), e10(), tie()]
}
