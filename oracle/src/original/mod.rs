//! Penne's own text, what stands around it, and its types to and from words.

include!(concat!(env!("OUT_DIR"), "/penne.rs"));

mod caught;
// Its fields are there for the original's text to fill in.
#[allow(dead_code)]
pub mod prelude;
pub mod words;
