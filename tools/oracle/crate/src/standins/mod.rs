//! What stands in for the rest of the compiler.
pub mod generated;
pub mod registers;
