//! What is asked about: all small inputs, and random ones.

#[cfg(face)]
pub mod damage;
pub mod journeys;
pub mod pools;
pub mod random;
pub mod relatives;
#[cfg(face)]
pub mod small_types;
pub mod types;
