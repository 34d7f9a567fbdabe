//! The lines that programs are held to, as the original answers.

pub mod answers;
pub mod cases;
mod listed;
mod listed_plans;
mod listed_symbols;
pub mod plan_lines;
pub mod script;
