//! The second model: the rules of document 01 and of requests a, b and c, said once more and in another way than the library.

pub mod bytes;
pub mod record;
pub mod replay;
pub mod rules;
pub mod setting;
pub mod table;
