//! The trace that a radio records, and the program `replay` that runs it again: the folder of cases, random traces, wrong models.

pub mod damage;
pub mod folder;
pub mod long;
pub mod maker;
pub mod many;
pub mod program;
pub mod sums;
pub mod tested;
pub mod writer;
pub mod wrong;
#[cfg(test)]
mod wrong_writers;
