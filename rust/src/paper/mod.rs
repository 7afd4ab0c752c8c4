//! Document 01 once more, and of document 02 the written form and one hall, from the documents alone.

pub mod bits;
pub mod check;
pub mod conditions;
pub mod configure;
pub mod evaluate;
pub mod hall;
pub mod image;
pub mod kinds;
pub mod lister;
pub mod plain;
pub mod reader;
pub mod report;
pub mod shared;
pub mod token;
pub mod tree;
