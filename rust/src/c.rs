//! The C functions as they are, for callers who need their numbers; the same as in
//! `include/type_formula.h`.
//!
//! # Safety
//!
//! Each pointer has as many readable bytes as the length beside it says, and as many writable ones
//! where the function writes; a pointer to a number has that one number. No pointer is null, also
//! where its length is 0. What a function writes, slices and numbers, overlaps nothing else that is
//! lent in the same call. No function keeps a pointer.
#![allow(unsafe_code)]

pub(crate) mod calls;

/// The answer of Typing and Recover where the schema does not type the node.
pub const UNTYPED: u8 = 255;

/// The answer of Verdict and Preview where no schema types the node.
pub const UNTYPABLE: u8 = 255;

extern "C" {
    /// Accepts an expression file. Answers 0 and writes its counts m and n; or answers a refusal,
    /// 1 to 10, and both numbers stay.
    pub fn type_formula_accept(
        file: *const u8,
        file_len: usize,
        relations: *mut u8,
        nodes: *mut u8,
    ) -> u8;

    /// Record: the part of the file that holds a node. Answers its length and writes where it
    /// starts; answers 0 and writes 0 where one of 1 to 11 applies.
    pub fn type_formula_record(
        file: *const u8,
        file_len: usize,
        node: usize,
        start: *mut usize,
    ) -> usize;

    /// Reads one node, with this number, off the front of the bytes, in a file of so many
    /// relations; any count and number will do. Answers eight bytes, low first: a refusal, 4 to 9,
    /// and zeros; or 0, the number of bytes that the node takes, those bytes (its map and its
    /// fields in bit order), and zeros.
    pub fn type_formula_read_node(
        relations: u8,
        number: u8,
        bytes: *const u8,
        bytes_len: usize,
    ) -> u64;

    /// Formula: the formulas of all nodes. Answers 0 and fills the first 1,024 n bytes of the work
    /// space; or answers a refusal, 1 to 10 or 12, and the work space stays. Bytes beyond those
    /// stay.
    pub fn type_formula_formula(
        file: *const u8,
        file_len: usize,
        work: *mut u8,
        work_len: usize,
    ) -> u8;

    /// Verdict: whether some schema types the node, of those in which every relation has an
    /// attribute. Answers 0, writes the witness to the schema slice, its length to the value and the
    /// number of its memberships, of which no such schema has fewer. The witness may have ordinary
    /// attributes, from 16 on, each in the relations of a type variable, in rising order of these.
    /// Of several with as few memberships it is the one with the lower subset at the first of
    /// attributes 1 to 15 that differs, and then the one whose list of variables is lower at the
    /// first difference. Or answers [`UNTYPABLE`] and writes to the value the lowest special
    /// attribute whose column allows nothing, or 0 where each allows something and the relations
    /// cannot all get an attribute; schema slice and memberships stay. Or answers a refusal, 1 to
    /// 13, and everything stays. Unless it refuses, it fills the work space as Formula does.
    ///
    /// Verdict takes up to 6,000 bytes of stack, 4,096 of them for its table of costs.
    pub fn type_formula_verdict(
        file: *const u8,
        file_len: usize,
        node: usize,
        work: *mut u8,
        work_len: usize,
        schema: *mut u8,
        schema_len: usize,
        value: *mut usize,
        memberships: *mut u8,
    ) -> u8;

    /// Typing: the type of the node under a schema. Answers 0, writes the output record to the
    /// result slice and its length to the value; or answers [`UNTYPED`], or a refusal, 1 to 11, 13
    /// to 18 or 25, and everything stays.
    pub fn type_formula_typing(
        file: *const u8,
        file_len: usize,
        node: usize,
        schema: *const u8,
        schema_len: usize,
        out: *mut u8,
        out_len: usize,
        value: *mut usize,
    ) -> u8;

    /// Apply: the schema and the output record of an instantiation of the node's formula. Answers
    /// 0, and writes both and their lengths; or answers a refusal, 1 to 21 or 26, and slices and
    /// lengths stay. With 0, 20, 21 and 26 it fills the work space as Formula does; with each other
    /// refusal that stays too.
    pub fn type_formula_apply(
        file: *const u8,
        file_len: usize,
        node: usize,
        instantiation: *const u8,
        instantiation_len: usize,
        work: *mut u8,
        work_len: usize,
        schema: *mut u8,
        schema_len: usize,
        out: *mut u8,
        out_len: usize,
        schema_size: *mut usize,
        out_size: *mut usize,
    ) -> u8;

    /// Recover: the instantiation of the node's formula whose image is the schema. Answers 0,
    /// writes it to the result slice and its length to the value; or answers [`UNTYPED`], or a
    /// refusal, 1 to 18 or 25, and slice and value stay. Unless it refuses, it fills the work space
    /// as Formula does.
    pub fn type_formula_recover(
        file: *const u8,
        file_len: usize,
        node: usize,
        schema: *const u8,
        schema_len: usize,
        work: *mut u8,
        work_len: usize,
        instantiation: *mut u8,
        instantiation_len: usize,
        value: *mut usize,
    ) -> u8;

    /// Parse a query: the expression file of a query that is typed as text, in a file of so many
    /// relations. Answers 0, writes the file to the file slice and its length to the size; or
    /// answers a refusal, and slice and size stay. The refusals in the order of their tests: 2, 13,
    /// 23, 22, 24, then 7 and 9, of which the leftmost in the text. It takes up to 160,000 bytes of
    /// stack, for a text of 512 opening parentheses: about 300 for each operand that has begun.
    pub fn type_formula_parse_query(
        relations: u8,
        text: *const u8,
        text_len: usize,
        file: *mut u8,
        file_len: usize,
        size: *mut usize,
    ) -> u8;

    /// Edit: the file with the node's bytes exchanged for a record, which may be any bytes. Answers
    /// 0, writes the edited file to the result slice and its length to the size; or answers a
    /// refusal, and slice and size stay. The refusals in the order of their tests: 1 to 11, 27,
    /// then those of the record, judged as the node of this number: 4 to 9, and 10 where bytes
    /// follow the node in it.
    pub fn type_formula_edit(
        file: *const u8,
        file_len: usize,
        node: usize,
        replacement: *const u8,
        replacement_len: usize,
        result: *mut u8,
        result_len: usize,
        size: *mut usize,
    ) -> u8;

    /// Preview: the verdict of the last node of the edited file, without a witness; no file is
    /// written. The record may be any bytes, as for Edit. Answers 0 and writes the number of
    /// memberships that Verdict's witness would have, and the attribute stays; or answers
    /// [`UNTYPABLE`] and writes the attribute that Verdict would, and the memberships stay. Or
    /// answers a refusal, and everything stays: 1 to 12, then those of the record, in the order of
    /// Edit. Unless it refuses, it fills the work space with the formulas of the edited file, as
    /// Formula does.
    ///
    /// Preview takes up to 6,000 bytes of stack, 4,096 of them for the table of costs.
    pub fn type_formula_preview(
        file: *const u8,
        file_len: usize,
        node: usize,
        replacement: *const u8,
        replacement_len: usize,
        work: *mut u8,
        work_len: usize,
        attribute: *mut u8,
        memberships: *mut u8,
    ) -> u8;
}
