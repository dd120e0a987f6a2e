//! The other implementation, written plainly from documents 01 and 02, and Edit and Preview from
//! `docs/FORMAT.md`.

mod apply;
mod cover;
mod edit;
mod expression;
mod formula;
mod instantiation;
mod listing;
mod preview;
mod query;
mod recover;
mod rules;
mod schema;
mod typing;
mod verdict;

pub use apply::{apply, Apply};
pub use cover::{best_cover, can_be_filled, members, Choices, Cover};
pub use edit::{edit, Edit};
pub use expression::{
    encode_file, encode_node, read_file, read_node, record, File, Node, ATTRIBUTE_IN_TWO_LISTS,
    ATTRIBUTE_OUTSIDE_RANGE, BYTES_AFTER_LAST_NODE, BYTES_END_BEFORE_OR_WITHIN_NODE,
    BYTES_END_EARLY, BYTES_LEFT_OVER, CODE_NOT_OF_MAP, COUNT_BYTE_ZERO, EDIT_SLICE_TOO_SHORT,
    EMPTY_RECORD, FEWER_THAN_TWO_BYTES, IMAGE_NOT_FILLED, LEGAL_MAPS, LISTED_ATTRIBUTE_TOO_LOW,
    MAP_NOT_LEGAL, NODE_COUNT_OUTSIDE_RANGE, NODE_NOT_BELOW_COUNT, OPERAND_NOT_EARLIER, PAIR_MAP,
    PROJECTING_OUT_MAP, RELATION_COUNT_OUTSIDE_RANGE, RELATION_MAP, RELATION_NOT_BELOW_COUNT,
    RENAMING_MAP, RESULT_SLICE_TOO_SHORT, SET_MAP, STANDING_BIT_NO_TYPE_VARIABLE,
    SUBSET_NOT_ALLOWED, TEXT_NOT_IN_LANGUAGE, TEXT_TOO_LONG, TOO_MANY_NODES,
    TOO_MANY_ORDINARY_ATTRIBUTES, WORK_SPACE_TOO_SHORT,
};
pub use formula::{
    allowed_subsets, formula, formulas, infer, is_allowed, is_output, pair_over, type_variables,
    Formula, Inferred, Pair, COLUMNS, COLUMN_LENGTH, FORMULA_LENGTH, OUTPUT_START,
};
pub use instantiation::{encode_instantiation, read_instantiation, Instantiation, LISTS_START};
pub use listing::listing;
pub use preview::{preview, Preview};
pub use query::{parse_query, ParseQuery, FILE_LENGTH, LONGEST_TEXT};
pub use recover::{recover, Recover, INSTANTIATION_LENGTH};
pub use rules::{assignment_of, holders, type_of, Type};
pub use schema::{encode_record, encode_schema, read_schema};
pub use typing::{typing, Typing, OUTPUT_LENGTH};
pub use verdict::{
    blocked_attribute, untypable_attribute, verdict, witness, Verdict, SCHEMA_LENGTH,
};
