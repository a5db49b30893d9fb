//! Orders that are written down: the rows of document 01, the source paper's examples, tables with each clause broken, pasted
//! orders; and the wrong models.

pub mod fixed;
pub mod paper;
pub mod pasted;
pub mod sweep;
pub mod twoways;
pub mod wrong;
