//! Calls, and how orders of them, faults and odd tables are made from a seed.

pub mod faults;
pub mod maker;
pub mod random;
pub mod steps;
pub mod tables;
