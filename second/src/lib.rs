//! A second reader, writer and listing, made from the scope paper's text
//! alone, with a seeded generator of cases and their expected outcomes.

pub mod carriage;
pub mod cases;
pub mod corpus;
pub mod directed;
pub mod errors;
pub mod generate;
pub mod listing;
pub mod package;
pub mod padding;
pub mod random;
pub mod reader;
pub mod refusal;
pub mod report;
pub mod rows;
pub mod types;
pub mod writer;
