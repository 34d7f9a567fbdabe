//! The header's questions, answered by the original and, where it has no answer, by document 01.

pub mod blank;
pub mod planning;
pub mod questions;
pub mod sheets;
pub mod symbols;
pub mod table;
