//! The refusals by name, with their numbers and texts.

use core::error::Error;
use core::fmt;

/// Why an operation gives no result (FORMAT 8.1). An operation gives the first refusal that
/// applies in its order of tests (FORMAT 8.5). Later versions may have more of them.
#[derive(Clone, Copy, Debug, PartialEq, Eq, Hash)]
#[non_exhaustive]
#[repr(u8)]
pub enum Refusal {
    /// The file has fewer than two bytes.
    HeaderTruncated = 1,
    /// The relation count m is not 1 to 8.
    RelationCount = 2,
    /// The node count n is not 1 to 64.
    NodeCount = 3,
    /// The file ends before a node, or within one; a record is empty, or ends within its node.
    NodeTruncated = 4,
    /// The node's map is none of the five legal ones.
    NodeMap = 5,
    /// The operator code is none of its map's.
    OperatorCode = 6,
    /// The relation's number is not below m.
    RelationNumber = 7,
    /// The operand's number is not below the node's own.
    Operand = 8,
    /// An attribute is not 1 to 15, or bit 0 of a set stands.
    Attribute = 9,
    /// Bytes follow the last node, or the node of a record.
    NodesFollowed = 10,
    /// The node asked for is not below n.
    NodeNumber = 11,
    /// The work space has fewer than 1,024 n bytes.
    WorkSpace = 12,
    /// A result slice has fewer than 322 (expression file), 513 (output record), 4,104 (schema) or
    /// 812 bytes (instantiation).
    ResultSlice = 13,
    /// The schema or instantiation ends before its last record or list does.
    InputTruncated = 14,
    /// A count byte is 0.
    CountZero = 15,
    /// A listed attribute is below 16, or not above the one before it.
    ListedAttribute = 16,
    /// Bytes follow the last record of a schema or the last list of an instantiation.
    InputFollowed = 17,
    /// A schema or an instantiation has more than 255 different ordinary attributes.
    TooManyAttributes = 18,
    /// An attribute is in two lists of an instantiation.
    RepeatedAttribute = 19,
    /// A bit stands in the instantiation's plane that is no type variable of the node.
    TypeVariable = 20,
    /// The subset given to a special attribute is not allowed in its column.
    SpecialSubset = 21,
    /// The text is no query: it is not in the language.
    QuerySyntax = 22,
    /// The text has more than 512 bytes.
    QueryLength = 23,
    /// The query has more than 64 nodes.
    QueryNodes = 24,
    /// A relation's record in a schema is empty: every relation has an attribute.
    EmptyRecord = 25,
    /// The image of an instantiation leaves a relation without an attribute.
    EmptyImage = 26,
    /// Edit's result slice has fewer than 322 bytes.
    EditSlice = 27,
}

/// Each refusal with its text, by number from 1. `include/type_formula.h` has the same texts.
const TEXTS: [(Refusal, &str); 27] = [
    (
        Refusal::HeaderTruncated,
        "the file has fewer than two bytes (FORMAT 1.1)",
    ),
    (
        Refusal::RelationCount,
        "the relation count is not 1 to 8 (FORMAT 1.1)",
    ),
    (
        Refusal::NodeCount,
        "the node count is not 1 to 64 (FORMAT 1.1)",
    ),
    (
        Refusal::NodeTruncated,
        "the file or record ends before a node or within one (FORMAT 1.2, 8.9)",
    ),
    (
        Refusal::NodeMap,
        "the node's map is none of the five legal ones (FORMAT 1.4)",
    ),
    (
        Refusal::OperatorCode,
        "the operator code is none of its map's (FORMAT 1.4)",
    ),
    (
        Refusal::RelationNumber,
        "the relation's number is not below the relation count (FORMAT 1.3)",
    ),
    (
        Refusal::Operand,
        "the operand's number is not below the node's own (FORMAT 1.3)",
    ),
    (
        Refusal::Attribute,
        "an attribute is not 1 to 15, or bit 0 of a set stands (FORMAT 1.3)",
    ),
    (
        Refusal::NodesFollowed,
        "bytes follow the last node, or the node of a record (FORMAT 1.1, 8.9)",
    ),
    (
        Refusal::NodeNumber,
        "the node asked for is not below the node count (FORMAT 1.1)",
    ),
    (
        Refusal::WorkSpace,
        "the work space has fewer than 1,024 bytes for each node (FORMAT 7.2)",
    ),
    (
        Refusal::ResultSlice,
        "a result slice has fewer than 322 bytes (expression file), 513 (output record), \
         4,104 (schema) or 812 (instantiation) (FORMAT 9.1, 9.8, 9.9, 9.11)",
    ),
    (
        Refusal::InputTruncated,
        "the schema or instantiation ends before its last record or list does (FORMAT 8.4)",
    ),
    (Refusal::CountZero, "a count byte is 0 (FORMAT 4.3)"),
    (
        Refusal::ListedAttribute,
        "a listed attribute is below 16, or not above the one before it (FORMAT 4.3)",
    ),
    (
        Refusal::InputFollowed,
        "bytes follow the last record of the schema or the last list of the instantiation \
         (FORMAT 5.1, 6.1)",
    ),
    (
        Refusal::TooManyAttributes,
        "there are more than 255 different ordinary attributes (FORMAT 5.2, 6.2)",
    ),
    (
        Refusal::RepeatedAttribute,
        "an attribute is in two lists of the instantiation (FORMAT 6.2)",
    ),
    (
        Refusal::TypeVariable,
        "a bit of the instantiation's plane is no type variable of the node (FORMAT 6.3)",
    ),
    (
        Refusal::SpecialSubset,
        "the subset given to a special attribute is not allowed in its column (FORMAT 6.3)",
    ),
    (
        Refusal::QuerySyntax,
        "the text is no query: not in the language (FORMAT 11.1)",
    ),
    (
        Refusal::QueryLength,
        "the text has more than 512 bytes (FORMAT 9.14)",
    ),
    (
        Refusal::QueryNodes,
        "the query has more than 64 nodes (FORMAT 9.3)",
    ),
    (
        Refusal::EmptyRecord,
        "a relation's record is empty: every relation has an attribute (FORMAT 5.5)",
    ),
    (
        Refusal::EmptyImage,
        "the image of the instantiation leaves a relation without an attribute (FORMAT 6.9)",
    ),
    (
        Refusal::EditSlice,
        "Edit's result slice has fewer than 322 bytes (FORMAT 9.1)",
    ),
];

impl Refusal {
    /// The number, 1 to 27.
    ///
    /// ```
    /// use type_formula::Refusal;
    ///
    /// assert_eq!(Refusal::NodesFollowed.number(), 10);
    /// let text = "bytes follow the last node, or the node of a record (FORMAT 1.1, 8.9)";
    /// assert_eq!(Refusal::NodesFollowed.to_string(), text);
    /// ```
    pub const fn number(self) -> u8 {
        self as u8
    }

    /// The text that `Display` writes.
    pub const fn text(self) -> &'static str {
        TEXTS[self as usize - 1].1
    }

    /// The refusal that a C function answered.
    pub(crate) fn answered(number: u8) -> Refusal {
        Refusal::try_from(number).expect("an answer is 0, 255 or a refusal's number")
    }
}

impl fmt::Display for Refusal {
    fn fmt(&self, f: &mut fmt::Formatter<'_>) -> fmt::Result {
        f.pad(self.text())
    }
}

impl Error for Refusal {}

/// A number that is no refusal's.
#[derive(Clone, Copy, Debug, PartialEq, Eq, Hash)]
pub struct UnknownRefusal(pub u8);

impl fmt::Display for UnknownRefusal {
    fn fmt(&self, f: &mut fmt::Formatter<'_>) -> fmt::Result {
        write!(f, "no refusal has the number {}", self.0)
    }
}

impl Error for UnknownRefusal {}

/// The refusal of a number.
///
/// ```
/// use type_formula::{Refusal, UnknownRefusal};
///
/// assert_eq!(Refusal::try_from(27), Ok(Refusal::EditSlice));
/// assert_eq!(Refusal::try_from(0), Err(UnknownRefusal(0)));
/// ```
impl TryFrom<u8> for Refusal {
    type Error = UnknownRefusal;

    fn try_from(number: u8) -> Result<Refusal, UnknownRefusal> {
        let place = usize::from(number).checked_sub(1);
        let entry = place.and_then(|place| TEXTS.get(place));
        entry
            .map(|(refusal, _)| *refusal)
            .ok_or(UnknownRefusal(number))
    }
}

#[cfg(test)]
mod tests {
    use super::{Refusal, UnknownRefusal, TEXTS};
    use std::string::ToString;

    #[test]
    fn texts_are_by_number() {
        for (number, (refusal, text)) in (1..).zip(TEXTS) {
            assert_eq!(refusal.number(), number);
            assert_eq!(Refusal::try_from(number), Ok(refusal));
            assert_eq!(refusal.to_string(), text);
        }
    }

    #[test]
    fn other_numbers_are_no_refusals() {
        for number in [0].into_iter().chain(28..=255) {
            assert_eq!(Refusal::try_from(number), Err(UnknownRefusal(number)));
        }
    }
}
