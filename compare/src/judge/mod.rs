//! Runs orders on the library and on the model, compares everything, cuts the power, and says what was reached.

pub mod cover;
pub mod cut;
pub mod drive;
pub mod joint;
pub mod life;
pub mod run;
pub mod shrink;
pub mod watch;
