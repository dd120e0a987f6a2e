//! Parsing a query, written plainly from document 02, Point 2: the text is cut into symbols,
//! which are put on a stack one by one. Where those on top make up an operand, they are
//! exchanged for it. A text is in the language where one operand is left.

use super::{
    encode_file, Node, ATTRIBUTE_OUTSIDE_RANGE, RELATION_COUNT_OUTSIDE_RANGE,
    RELATION_NOT_BELOW_COUNT, RESULT_SLICE_TOO_SHORT, TEXT_NOT_IN_LANGUAGE, TEXT_TOO_LONG,
    TOO_MANY_NODES,
};

/// The most bytes of a text.
pub const LONGEST_TEXT: usize = 512;
/// The least length of a slice for an expression file.
pub const FILE_LENGTH: usize = 322;
/// The most nodes of a query.
const MOST_NODES: usize = 64;

/// An answer of parsing a query.
#[derive(Clone, Copy, Debug, PartialEq, Eq)]
pub enum ParseQuery {
    /// The expression file is written; its length.
    Parsed { length: usize },
    /// The first refusal.
    Refused { number: u8 },
}

/// A symbol of the text, or an operand that stands for some of them.
enum Symbol {
    Open,
    Close,
    /// `+`, `-`, `*` or `#`.
    Sign(u8),
    /// `r` and the digit.
    Relation(u8),
    /// `S`, `P`, `N` or `D` and the numbers in its brackets.
    Prefix(u8, Vec<u8>),
    /// An operand, by the number of its node.
    Operand(usize),
}

/// A node: `r`, the sign of a pair or the letter of a prefix, its numbers as they are
/// written, and its operands.
struct Written {
    sign: u8,
    numbers: Vec<u8>,
    operands: Vec<usize>,
}

/// The number that is written so: one or two digits, no leading zero but `0` itself.
fn number(text: &[u8]) -> Option<u8> {
    match *text {
        [one @ b'0'..=b'9'] => Some(one - b'0'),
        [ten @ b'1'..=b'9', one @ b'0'..=b'9'] => Some(10 * (ten - b'0') + (one - b'0')),
        _ => None,
    }
}

/// The numbers with this byte between each two of them; at least one.
fn separated(text: &[u8], separator: u8) -> Option<Vec<u8>> {
    text.split(|&byte| byte == separator).map(number).collect()
}

/// The numbers in the brackets after a letter: a rising, perhaps empty, list; two; or one.
fn bracketed(letter: u8, text: &[u8]) -> Option<Vec<u8>> {
    let rises = |numbers: &Vec<u8>| numbers.windows(2).all(|pair| pair[0] < pair[1]);
    match letter {
        b'S' | b'P' if text.is_empty() => Some(Vec::new()),
        b'S' | b'P' => separated(text, b',').filter(rises),
        b'N' => separated(text, b'>').filter(|numbers| numbers.len() == 2),
        _ => number(text).map(|old| vec![old]),
    }
}

/// The symbol that the text begins with, and what follows it.
fn first_symbol(text: &[u8]) -> Option<(Symbol, &[u8])> {
    match text {
        [b'(', rest @ ..] => Some((Symbol::Open, rest)),
        [b')', rest @ ..] => Some((Symbol::Close, rest)),
        [sign @ (b'+' | b'-' | b'*' | b'#'), rest @ ..] => Some((Symbol::Sign(*sign), rest)),
        [b'r', digit @ b'0'..=b'9', rest @ ..] => Some((Symbol::Relation(digit - b'0'), rest)),
        [letter @ (b'S' | b'P' | b'N' | b'D'), b'[', rest @ ..] => {
            let end = rest.iter().position(|&byte| byte == b']')?;
            let numbers = bracketed(*letter, &rest[..end])?;
            Some((Symbol::Prefix(*letter, numbers), &rest[end + 1..]))
        }
        _ => None,
    }
}

/// The symbols of a text.
fn symbols(text: &[u8]) -> Option<Vec<Symbol>> {
    let (mut symbols, mut rest) = (Vec::new(), text);
    while !rest.is_empty() {
        let (symbol, after) = first_symbol(rest)?;
        symbols.push(symbol);
        rest = after;
    }
    Some(symbols)
}

/// The node that the symbols on top of the stack are written for, and how many they are.
fn on_top(stack: &[Symbol]) -> Option<(Written, usize)> {
    use Symbol::{Close, Open, Operand, Prefix, Relation, Sign};
    let (sign, numbers, operands, length) = match stack {
        [.., Relation(digit)] => (b'r', vec![*digit], vec![], 1),
        [.., Prefix(letter, numbers), Operand(operand)] => {
            (*letter, numbers.clone(), vec![*operand], 2)
        }
        [.., Open, Operand(left), Sign(sign), Operand(right), Close] => {
            (*sign, vec![], vec![*left, *right], 5)
        }
        _ => return None,
    };
    let written = Written {
        sign,
        numbers,
        operands,
    };
    Some((written, length))
}

/// The nodes that the symbols are written for, in the order in which their text ends; none if
/// they are not one operand.
fn nodes(symbols: Vec<Symbol>) -> Option<Vec<Written>> {
    let (mut stack, mut nodes) = (Vec::new(), Vec::new());
    for symbol in symbols {
        stack.push(symbol);
        while let Some((written, length)) = on_top(&stack) {
            stack.truncate(stack.len() - length);
            stack.push(Symbol::Operand(nodes.len()));
            nodes.push(written);
        }
    }
    matches!(stack[..], [Symbol::Operand(_)]).then_some(nodes)
}

/// The refusal of the leftmost symbol with a number outside its range, if there is one.
fn leftmost_fault(symbols: &[Symbol], relations: u8) -> Option<u8> {
    let is_special = |attribute: &u8| (1..=15).contains(attribute);
    symbols.iter().find_map(|symbol| match symbol {
        Symbol::Relation(digit) if *digit >= relations => Some(RELATION_NOT_BELOW_COUNT),
        Symbol::Prefix(_, numbers) if !numbers.iter().all(is_special) => {
            Some(ATTRIBUTE_OUTSIDE_RANGE)
        }
        _ => None,
    })
}

/// The node of an expression file; its numbers are in their ranges.
fn node(written: &Written) -> Node {
    let number = |place: usize| written.numbers.get(place).copied().unwrap_or(0);
    let operand = |place: usize| written.operands.get(place).map_or(0, |&node| node as u8);
    let (left, right, operand) = (operand(0), operand(1), operand(0));
    let (relation, old, new) = (number(0), number(0), number(1));
    let attributes = written.numbers.iter();
    let set = attributes.fold(0, |set, attribute| set | 1 << attribute);
    match written.sign {
        b'r' => Node::Relation { relation },
        b'+' => Node::Union { left, right },
        b'-' => Node::Difference { left, right },
        b'*' => Node::NaturalJoin { left, right },
        b'#' => Node::Product { left, right },
        b'S' => Node::Selection { operand, set },
        b'P' => Node::Projection { operand, set },
        b'N' => Node::Renaming { operand, old, new },
        b'D' => Node::ProjectingOut { operand, old },
        _ => unreachable!("the letters and signs of symbols"),
    }
}

/// The expression file, or the first refusal.
fn file_of(relations: u8, text: &[u8], file_length: usize) -> Result<Vec<u8>, u8> {
    if !(1..=8).contains(&relations) {
        return Err(RELATION_COUNT_OUTSIDE_RANGE);
    }
    if file_length < FILE_LENGTH {
        return Err(RESULT_SLICE_TOO_SHORT);
    }
    if text.len() > LONGEST_TEXT {
        return Err(TEXT_TOO_LONG);
    }
    let symbols = symbols(text).ok_or(TEXT_NOT_IN_LANGUAGE)?;
    let fault = leftmost_fault(&symbols, relations);
    let nodes = nodes(symbols).ok_or(TEXT_NOT_IN_LANGUAGE)?;
    if nodes.len() > MOST_NODES {
        return Err(TOO_MANY_NODES);
    }
    if let Some(refusal) = fault {
        return Err(refusal);
    }
    let nodes: Vec<Node> = nodes.iter().map(node).collect();
    Ok(encode_file(relations, &nodes))
}

/// Parses a query: writes its expression file, in which there are so many relations; with a
/// refusal the slice stays.
pub fn parse_query(relations: u8, text: &[u8], file: &mut [u8]) -> ParseQuery {
    match file_of(relations, text, file.len()) {
        Ok(written) => {
            let length = written.len();
            file[..length].copy_from_slice(&written);
            ParseQuery::Parsed { length }
        }
        Err(number) => ParseQuery::Refused { number },
    }
}
