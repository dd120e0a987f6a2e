//! Parsing a query: one loop over the text, with a stack of the nodes that have not ended.

use std::slice::Iter;

use type_formula_tests::reference::{
    ParseQuery, ATTRIBUTE_OUTSIDE_RANGE, FILE_LENGTH, LONGEST_TEXT, PAIR_MAP, PROJECTING_OUT_MAP,
    RELATION_COUNT_OUTSIDE_RANGE, RELATION_MAP, RELATION_NOT_BELOW_COUNT, RENAMING_MAP, SET_MAP,
    TEXT_NOT_IN_LANGUAGE, TEXT_TOO_LONG, TOO_MANY_NODES,
};

use super::buffer::{room, Buffer, Room};
use super::check_result;
use super::reader::refuse_if;

/// The most nodes of a query.
const MOST_NODES: u8 = 64;
/// The most bytes of all nodes.
const NODES_LENGTH: usize = 5 * MOST_NODES as usize;

/// A node that has begun.
#[derive(Clone, Copy)]
enum Begun {
    /// A pair whose left operand is being read.
    Left,
    /// A pair whose right operand is being read.
    Right {
        left: u8,
        code: u8,
    },
    WithSet {
        code: u8,
        set: u16,
    },
    Renaming {
        old: u8,
        new: u8,
    },
    ProjectingOut {
        old: u8,
    },
}

/// The nodes that have ended.
struct Nodes<'a> {
    bytes: Buffer<'a, u8>,
    /// How many there are; the bytes of at most 64 are kept.
    count: u8,
}

impl Nodes<'_> {
    #[inline(always)]
    fn add<const N: usize>(&mut self, node: [u8; N]) {
        if self.count < MOST_NODES {
            self.bytes.extend(&node);
        }
        self.count += 1;
    }
}

/// The refusal of the first fault, given another one.
#[cold]
fn first_of(fault: u8, other: u8) -> u8 {
    match fault {
        0 => other,
        first => first,
    }
}

/// The rest of a text, and the first fault of the numbers before it.
struct Reader<'a> {
    rest: Iter<'a, u8>,
    fault: u8,
}

impl Reader<'_> {
    #[inline(always)]
    fn take(&mut self) -> Result<u8, u8> {
        self.rest.next().copied().ok_or(TEXT_NOT_IN_LANGUAGE)
    }

    #[inline(always)]
    fn expect(&mut self, wanted: u8) -> Result<(), u8> {
        let byte = self.take()?;
        refuse_if(byte != wanted, TEXT_NOT_IN_LANGUAGE)
    }

    #[inline(always)]
    fn note_fault(&mut self, is_wrong: bool, refusal: u8) {
        if is_wrong {
            self.fault = first_of(self.fault, refusal);
        }
    }

    #[inline(always)]
    fn digit(&mut self) -> Result<u8, u8> {
        let digit = self.take()?.wrapping_sub(b'0');
        refuse_if(digit > 9, TEXT_NOT_IN_LANGUAGE)?;
        Ok(digit)
    }

    /// An attribute and the byte after it.
    #[inline(always)]
    fn attribute(&mut self) -> Result<(u8, u8), u8> {
        let mut attribute = self.digit()?;
        let mut next = self.take()?;
        let second = next.wrapping_sub(b'0');
        if second <= 9 {
            refuse_if(attribute == 0, TEXT_NOT_IN_LANGUAGE)?;
            attribute = 10 * attribute + second;
            next = self.take()?;
        }
        self.note_fault(attribute.wrapping_sub(1) >= 15, ATTRIBUTE_OUTSIDE_RANGE);
        Ok((attribute, next))
    }

    /// An attribute and a certain byte after it.
    #[inline(always)]
    fn attribute_before(&mut self, wanted: u8) -> Result<u8, u8> {
        let (attribute, next) = self.attribute()?;
        refuse_if(next != wanted, TEXT_NOT_IN_LANGUAGE)?;
        Ok(attribute)
    }

    /// The set of a list and its brackets.
    #[inline(always)]
    fn list(&mut self) -> Result<u16, u8> {
        self.expect(b'[')?;
        if self.rest.as_slice().first() == Some(&b']') {
            self.rest.next();
            return Ok(0);
        }
        let (mut set, mut least) = (0, 0);
        loop {
            let (attribute, next) = self.attribute()?;
            refuse_if(attribute < least, TEXT_NOT_IN_LANGUAGE)?;
            set |= 1 << (attribute & 15);
            least = attribute + 1;
            if next == b']' {
                return Ok(set);
            }
            refuse_if(next != b',', TEXT_NOT_IN_LANGUAGE)?;
        }
    }

    /// What begins with this byte, if it is no relation.
    #[inline(always)]
    fn begun(&mut self, first: u8) -> Result<Begun, u8> {
        Ok(match first {
            b'(' => Begun::Left,
            b'S' => Begun::WithSet {
                code: 5,
                set: self.list()?,
            },
            b'P' => Begun::WithSet {
                code: 6,
                set: self.list()?,
            },
            b'N' => {
                self.expect(b'[')?;
                let (old, new) = (self.attribute_before(b'>')?, self.attribute_before(b']')?);
                Begun::Renaming { old, new }
            }
            b'D' => {
                self.expect(b'[')?;
                let old = self.attribute_before(b']')?;
                Begun::ProjectingOut { old }
            }
            _ => return Err(TEXT_NOT_IN_LANGUAGE),
        })
    }

    /// The code of a sign.
    #[inline(always)]
    fn sign(&mut self) -> Result<u8, u8> {
        match self.take()? {
            b'+' => Ok(1),
            b'-' => Ok(2),
            b'*' => Ok(3),
            b'#' => Ok(4),
            _ => Err(TEXT_NOT_IN_LANGUAGE),
        }
    }

    /// Reads the whole text.
    #[inline(always)]
    fn query(&mut self, relations: u8, nodes: &mut Nodes) -> Result<(), u8> {
        let mut stack_room: Room<Begun, LONGEST_TEXT> = room();
        let mut stack = Buffer::new(&mut stack_room);
        loop {
            let first = self.take()?;
            if first != b'r' {
                let begun = self.begun(first)?;
                stack.push(begun);
                continue;
            }
            let relation = self.digit()?;
            self.note_fault(relation >= relations, RELATION_NOT_BELOW_COUNT);
            nodes.add([RELATION_MAP, relation]);
            loop {
                let last = nodes.count - 1;
                let Some(begun) = stack.pop() else {
                    return refuse_if(!self.rest.as_slice().is_empty(), TEXT_NOT_IN_LANGUAGE);
                };
                match begun {
                    Begun::Left => {
                        let code = self.sign()?;
                        stack.push(Begun::Right { left: last, code });
                        break;
                    }
                    Begun::Right { left, code } => {
                        self.expect(b')')?;
                        nodes.add([PAIR_MAP, left, last, code]);
                    }
                    Begun::WithSet { code, set } => {
                        let [low, high] = set.to_le_bytes();
                        nodes.add([SET_MAP, last, code, low, high]);
                    }
                    Begun::Renaming { old, new } => nodes.add([RENAMING_MAP, last, old, new]),
                    Begun::ProjectingOut { old } => nodes.add([PROJECTING_OUT_MAP, last, old]),
                }
            }
        }
    }
}

/// The length of the file that is written, or the first refusal.
#[inline(always)]
fn parse(relations: u8, text: &[u8], file: &mut [u8]) -> Result<usize, u8> {
    refuse_if(
        relations == 0 || relations > 8,
        RELATION_COUNT_OUTSIDE_RANGE,
    )?;
    check_result(file, FILE_LENGTH)?;
    refuse_if(text.len() > LONGEST_TEXT, TEXT_TOO_LONG)?;
    let mut node_room: Room<u8, NODES_LENGTH> = room();
    let mut nodes = Nodes {
        bytes: Buffer::new(&mut node_room),
        count: 0,
    };
    let mut reader = Reader {
        rest: text.iter(),
        fault: 0,
    };
    reader.query(relations, &mut nodes)?;
    refuse_if(nodes.count > MOST_NODES, TOO_MANY_NODES)?;
    refuse_if(reader.fault != 0, reader.fault)?;
    file[..2].copy_from_slice(&[relations, nodes.count]);
    file[2..][..nodes.bytes.len()].copy_from_slice(&nodes.bytes);
    Ok(2 + nodes.bytes.len())
}

/// Parses a query.
pub fn parse_query(relations: u8, text: &[u8], file: &mut [u8]) -> ParseQuery {
    match parse(relations, text, file) {
        Ok(length) => ParseQuery::Parsed { length },
        Err(number) => ParseQuery::Refused { number },
    }
}
