//! A second reading of document 01 and of Wishes 1 and 2 of document 02 in Rust, and what is needed
//! to hold the proved library against it.

pub mod flat;
pub mod generate;
pub mod manager;
pub mod random;
#[cfg(trial)]
pub mod rattle;
pub mod recorder;
