/*
 * Type formulas of relational-algebra expressions: the operations for callers in C (C99 and later)
 * and C++. Link with libtype_formula.a, which the command 'sh tools/build.sh type_formula' writes to
 * target/staticlib. "FORMAT" is docs/FORMAT.md: what the bytes are and what the operations answer.
 *
 * What the boundary assumes
 *
 * Each pointer has as many readable bytes as the length beside it says, and as many writable
 * ones where the function writes; a pointer to a number has that one number. No pointer is null,
 * also where its length is 0. What a function writes, slices and numbers, overlaps nothing else
 * that is lent in the same call. No function keeps a pointer. There is no global state: calls from
 * several threads do not meet, provided that what one of them writes is lent to no other at that
 * time. Nothing is assumed about the bytes: any bytes get an answer.
 */
#ifndef TYPE_FORMULA_H
#define TYPE_FORMULA_H

#include <stddef.h>
#include <stdint.h>

#ifdef __cplusplus
extern "C" {
#endif

/* The version of this header and of the archive, and as one number: 10,000 major + 100 minor + patch. */
#define TYPE_FORMULA_VERSION_MAJOR 0
#define TYPE_FORMULA_VERSION_MINOR 5
#define TYPE_FORMULA_VERSION_PATCH 0
#define TYPE_FORMULA_VERSION 500

/* The most relations of an expression file. */
#define TYPE_FORMULA_MOST_RELATIONS 8
/* The most nodes of an expression file. */
#define TYPE_FORMULA_MOST_NODES 64
/* The least length of a result slice for an expression file; no accepted one is longer. */
#define TYPE_FORMULA_LONGEST_FILE 322
/* The most bytes of a query's text. */
#define TYPE_FORMULA_LONGEST_QUERY 512
/* The bytes of work space that a node's formula takes. */
#define TYPE_FORMULA_FORMULA_SIZE 1024
/* The bytes of work space that are enough for every file: one formula for each of the most nodes. */
#define TYPE_FORMULA_WORK_SIZE 65536
/* The least length of a result slice for an output record; no output record is longer. */
#define TYPE_FORMULA_OUTPUT_SIZE 513
/* The least length of a result slice for a schema; no schema is longer. */
#define TYPE_FORMULA_SCHEMA_SIZE 4104
/* The least length of a result slice for an instantiation; no instantiation is longer. */
#define TYPE_FORMULA_INSTANTIATION_SIZE 812

/* The answer of Typing and Recover where the schema does not type the node. */
#define TYPE_FORMULA_UNTYPED 255
/* The answer of Verdict and Preview where no schema types the node. */
#define TYPE_FORMULA_UNTYPABLE 255

/* The refusals (FORMAT 8.1). An answer is the number of the first that applies (FORMAT 8.5). */
enum type_formula_refusal {
    /* The file has fewer than two bytes. */
    TYPE_FORMULA_HEADER_TRUNCATED = 1,
    /* The relation count m is not 1 to 8. */
    TYPE_FORMULA_RELATION_COUNT = 2,
    /* The node count n is not 1 to 64. */
    TYPE_FORMULA_NODE_COUNT = 3,
    /* The file ends before a node, or within one; a record is empty, or ends within its node. */
    TYPE_FORMULA_NODE_TRUNCATED = 4,
    /* The node's map is none of the five legal ones. */
    TYPE_FORMULA_NODE_MAP = 5,
    /* The operator code is none of its map's. */
    TYPE_FORMULA_OPERATOR_CODE = 6,
    /* The relation's number is not below m. */
    TYPE_FORMULA_RELATION_NUMBER = 7,
    /* The operand's number is not below the node's own. */
    TYPE_FORMULA_OPERAND = 8,
    /* An attribute is not 1 to 15, or bit 0 of a set stands. */
    TYPE_FORMULA_ATTRIBUTE = 9,
    /* Bytes follow the last node, or the node of a record. */
    TYPE_FORMULA_NODES_FOLLOWED = 10,
    /* The node asked for is not below n. */
    TYPE_FORMULA_NODE_NUMBER = 11,
    /* The work space has fewer than 1,024 n bytes. */
    TYPE_FORMULA_WORK_SPACE = 12,
    /*
     * A result slice has fewer than 322 (expression file), 513 (output record), 4,104 (schema) or 812
     * bytes (instantiation).
     */
    TYPE_FORMULA_RESULT_SLICE = 13,
    /* The schema or instantiation ends before its last record or list does. */
    TYPE_FORMULA_INPUT_TRUNCATED = 14,
    /* A count byte is 0. */
    TYPE_FORMULA_COUNT_ZERO = 15,
    /* A listed attribute is below 16, or not above the one before it. */
    TYPE_FORMULA_LISTED_ATTRIBUTE = 16,
    /* Bytes follow the last record of a schema or the last list of an instantiation. */
    TYPE_FORMULA_INPUT_FOLLOWED = 17,
    /* A schema or an instantiation has more than 255 different ordinary attributes. */
    TYPE_FORMULA_TOO_MANY_ATTRIBUTES = 18,
    /* An attribute is in two lists of an instantiation. */
    TYPE_FORMULA_REPEATED_ATTRIBUTE = 19,
    /* A bit stands in the instantiation's plane that is no type variable of the node. */
    TYPE_FORMULA_TYPE_VARIABLE = 20,
    /* The subset given to a special attribute is not allowed in its column. */
    TYPE_FORMULA_SPECIAL_SUBSET = 21,
    /* The text is no query: it is not in the language. */
    TYPE_FORMULA_QUERY_SYNTAX = 22,
    /* The text has more than 512 bytes. */
    TYPE_FORMULA_QUERY_LENGTH = 23,
    /* The query has more than 64 nodes. */
    TYPE_FORMULA_QUERY_NODES = 24,
    /* A relation's record in a schema is empty: every relation has an attribute. */
    TYPE_FORMULA_EMPTY_RECORD = 25,
    /* The image of an instantiation leaves a relation without an attribute. */
    TYPE_FORMULA_EMPTY_IMAGE = 26,
    /* Edit's result slice has fewer than 322 bytes. */
    TYPE_FORMULA_EDIT_SLICE = 27
};

/*
 * Accepts an expression file. Answers 0 and writes its counts m and n; or answers a refusal,
 * 1 to 10, and both numbers stay.
 */
uint8_t type_formula_accept(const uint8_t *file, size_t file_len, uint8_t *relations, uint8_t *nodes);

/*
 * Record: the part of the file that holds a node. Answers its length and writes where it starts;
 * answers 0 and writes 0 where one of 1 to 11 applies.
 */
size_t type_formula_record(const uint8_t *file, size_t file_len, size_t node, size_t *start);

/*
 * Reads one node, with this number, off the front of the bytes, in a file of so many relations; any
 * count and number will do. Answers eight bytes, low first: a refusal, 4 to 9, and zeros; or 0, the
 * number of bytes that the node takes, those bytes (its map and its fields in bit order), and zeros.
 */
uint64_t type_formula_read_node(uint8_t relations, uint8_t number, const uint8_t *bytes, size_t bytes_len);

/*
 * Formula: the formulas of all nodes. Answers 0 and fills the first 1,024 n bytes of the work space;
 * or answers a refusal, 1 to 10 or 12, and the work space stays. Bytes beyond those stay.
 */
uint8_t type_formula_formula(const uint8_t *file, size_t file_len, uint8_t *work, size_t work_len);

/*
 * Verdict: whether some schema types the node, of those in which every relation has an attribute.
 * Answers 0, writes the witness to the schema slice, its length to the value and the number of its
 * memberships, of which no such schema has fewer. The witness may have ordinary attributes, from 16
 * on, each in the relations of a type variable, in rising order of these. Of several with as few
 * memberships it is the one with the lower subset at the first of attributes 1 to 15 that differs,
 * and then the one whose list of variables is lower at the first difference. Or answers
 * TYPE_FORMULA_UNTYPABLE and writes to the value the lowest special attribute whose column allows
 * nothing, or 0 where each allows something and the relations cannot all get an attribute; schema
 * slice and memberships stay. Or answers a refusal, 1 to 13, and everything stays. Unless it refuses,
 * it fills the work space as Formula does.
 * Verdict takes up to 6,000 bytes of stack, 4,096 of them for its table of costs.
 */
uint8_t type_formula_verdict(const uint8_t *file, size_t file_len, size_t node, uint8_t *work, size_t work_len,
                             uint8_t *schema, size_t schema_len, size_t *value, uint8_t *memberships);

/*
 * Typing: the type of the node under a schema. Answers 0, writes the output record to the result
 * slice and its length to the value; or answers TYPE_FORMULA_UNTYPED, or a refusal, 1 to 11, 13 to 18
 * or 25, and everything stays.
 */
uint8_t type_formula_typing(const uint8_t *file, size_t file_len, size_t node, const uint8_t *schema,
                            size_t schema_len, uint8_t *out, size_t out_len, size_t *value);

/*
 * Apply: the schema and the output record of an instantiation of the node's formula. Answers 0, and
 * writes both and their lengths; or answers a refusal, 1 to 21 or 26, and slices and lengths stay.
 * With 0, 20, 21 and 26 it fills the work space as Formula does; with each other refusal that stays
 * too.
 */
uint8_t type_formula_apply(const uint8_t *file, size_t file_len, size_t node, const uint8_t *instantiation,
                           size_t instantiation_len, uint8_t *work, size_t work_len, uint8_t *schema,
                           size_t schema_len, uint8_t *out, size_t out_len, size_t *schema_size,
                           size_t *out_size);

/*
 * Recover: the instantiation of the node's formula whose image is the schema. Answers 0, writes it to
 * the result slice and its length to the value; or answers TYPE_FORMULA_UNTYPED, or a refusal, 1 to 18
 * or 25, and slice and value stay. Unless it refuses, it fills the work space as Formula does.
 */
uint8_t type_formula_recover(const uint8_t *file, size_t file_len, size_t node, const uint8_t *schema,
                             size_t schema_len, uint8_t *work, size_t work_len, uint8_t *instantiation,
                             size_t instantiation_len, size_t *value);

/*
 * Parse a query: the expression file of a query that is typed as text, in a file of so many relations.
 * Answers 0, writes the file to the file slice and its length to the size; or answers a refusal, and
 * slice and size stay. The refusals in the order of their tests: 2, 13, 23, 22, 24, then 7 and 9, of
 * which the leftmost in the text. It takes up to 160,000 bytes of stack, for a text of 512 opening
 * parentheses: about 300 for each operand that has begun.
 */
uint8_t type_formula_parse_query(uint8_t relations, const uint8_t *text, size_t text_len, uint8_t *file,
                                 size_t file_len, size_t *size);

/*
 * Edit: the file with the node's bytes exchanged for a record, which may be any bytes. Answers 0, writes
 * the edited file to the result slice and its length to the size; or answers a refusal, and slice and
 * size stay. The refusals in the order of their tests: 1 to 11, 27, then those of the record, judged as
 * the node of this number: 4 to 9, and 10 where bytes follow the node in it.
 */
uint8_t type_formula_edit(const uint8_t *file, size_t file_len, size_t node, const uint8_t *replacement,
                          size_t replacement_len, uint8_t *result, size_t result_len, size_t *size);

/*
 * Preview: the verdict of the last node of the edited file, without a witness; no file is written.
 * The record may be any bytes, as for Edit. Answers 0 and writes the number of memberships that
 * Verdict's witness would have, and the attribute stays; or answers TYPE_FORMULA_UNTYPABLE and writes
 * the attribute that Verdict would, and the memberships stay. Or answers a refusal, and everything
 * stays: 1 to 12, then those of the record, in the order of Edit. Unless it refuses, it fills the work
 * space with the formulas of the edited file, as Formula does.
 * Preview takes up to 6,000 bytes of stack, 4,096 of them for the table of costs.
 */
uint8_t type_formula_preview(const uint8_t *file, size_t file_len, size_t node, const uint8_t *replacement,
                             size_t replacement_len, uint8_t *work, size_t work_len, uint8_t *attribute,
                             uint8_t *memberships);

/*
 * What an answer says, as text in English. For a number that is no refusal, 0 and 255 among them, it
 * is "no refusal".
 */
static inline const char *type_formula_refusal_text(int answer)
{
    switch (answer) {
    case TYPE_FORMULA_HEADER_TRUNCATED:
        return "the file has fewer than two bytes (FORMAT 1.1)";
    case TYPE_FORMULA_RELATION_COUNT:
        return "the relation count is not 1 to 8 (FORMAT 1.1)";
    case TYPE_FORMULA_NODE_COUNT:
        return "the node count is not 1 to 64 (FORMAT 1.1)";
    case TYPE_FORMULA_NODE_TRUNCATED:
        return "the file or record ends before a node or within one (FORMAT 1.2, 8.9)";
    case TYPE_FORMULA_NODE_MAP:
        return "the node's map is none of the five legal ones (FORMAT 1.4)";
    case TYPE_FORMULA_OPERATOR_CODE:
        return "the operator code is none of its map's (FORMAT 1.4)";
    case TYPE_FORMULA_RELATION_NUMBER:
        return "the relation's number is not below the relation count (FORMAT 1.3)";
    case TYPE_FORMULA_OPERAND:
        return "the operand's number is not below the node's own (FORMAT 1.3)";
    case TYPE_FORMULA_ATTRIBUTE:
        return "an attribute is not 1 to 15, or bit 0 of a set stands (FORMAT 1.3)";
    case TYPE_FORMULA_NODES_FOLLOWED:
        return "bytes follow the last node, or the node of a record (FORMAT 1.1, 8.9)";
    case TYPE_FORMULA_NODE_NUMBER:
        return "the node asked for is not below the node count (FORMAT 1.1)";
    case TYPE_FORMULA_WORK_SPACE:
        return "the work space has fewer than 1,024 bytes for each node (FORMAT 7.2)";
    case TYPE_FORMULA_RESULT_SLICE:
        return "a result slice has fewer than 322 bytes (expression file), 513 (output record), "
               "4,104 (schema) or 812 (instantiation) (FORMAT 9.1, 9.8, 9.9, 9.11)";
    case TYPE_FORMULA_INPUT_TRUNCATED:
        return "the schema or instantiation ends before its last record or list does (FORMAT 8.4)";
    case TYPE_FORMULA_COUNT_ZERO:
        return "a count byte is 0 (FORMAT 4.3)";
    case TYPE_FORMULA_LISTED_ATTRIBUTE:
        return "a listed attribute is below 16, or not above the one before it (FORMAT 4.3)";
    case TYPE_FORMULA_INPUT_FOLLOWED:
        return "bytes follow the last record of the schema or the last list of the "
               "instantiation (FORMAT 5.1, 6.1)";
    case TYPE_FORMULA_TOO_MANY_ATTRIBUTES:
        return "there are more than 255 different ordinary attributes (FORMAT 5.2, 6.2)";
    case TYPE_FORMULA_REPEATED_ATTRIBUTE:
        return "an attribute is in two lists of the instantiation (FORMAT 6.2)";
    case TYPE_FORMULA_TYPE_VARIABLE:
        return "a bit of the instantiation's plane is no type variable of the node (FORMAT 6.3)";
    case TYPE_FORMULA_SPECIAL_SUBSET:
        return "the subset given to a special attribute is not allowed in its column (FORMAT 6.3)";
    case TYPE_FORMULA_QUERY_SYNTAX:
        return "the text is no query: not in the language (FORMAT 11.1)";
    case TYPE_FORMULA_QUERY_LENGTH:
        return "the text has more than 512 bytes (FORMAT 9.14)";
    case TYPE_FORMULA_QUERY_NODES:
        return "the query has more than 64 nodes (FORMAT 9.3)";
    case TYPE_FORMULA_EMPTY_RECORD:
        return "a relation's record is empty: every relation has an attribute (FORMAT 5.5)";
    case TYPE_FORMULA_EMPTY_IMAGE:
        return "the image of the instantiation leaves a relation without an attribute (FORMAT 6.9)";
    case TYPE_FORMULA_EDIT_SLICE:
        return "Edit's result slice has fewer than 322 bytes (FORMAT 9.1)";
    default:
        return "no refusal";
    }
}

#ifdef __cplusplus
}
#endif

#endif
