//! Views of bytes that an operation accepted or wrote.

mod expression;
mod formula;
mod instantiation;
mod schema;
mod type_record;

pub use expression::{Expression, Nodes};
pub use formula::{Formula, Formulas};
pub use instantiation::{Instantiation, Lists};
pub(crate) use instantiation::{LISTS_START, PLANE_START};
pub use schema::{Records, Schema};
pub use type_record::{List, TypeRecord};
