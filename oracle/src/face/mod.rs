//! The proved library's C face, each section of the header in a file. What is lent stands between guards.

pub mod plan_face;
pub mod sheet_face;
pub mod symbol_face;
pub mod type_face;
