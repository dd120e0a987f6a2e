//! Builders of expression files, schemas and instantiations, in arrays of their own.

mod buffer;
mod expression;
mod instantiation;
mod schema;

pub use expression::ExpressionBuilder;
pub use instantiation::InstantiationBuilder;
pub use schema::SchemaBuilder;
