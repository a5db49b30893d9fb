//! What is under test: the seven calls over plain buffers, and the ways to them.

#[allow(unsafe_code, dead_code)]
#[path = "../../../board/board.rs"]
#[rustfmt::skip] // the shipped file has its own layout
mod board;
pub mod calls;
#[allow(unsafe_code)]
pub mod linked;
pub mod mock;
pub mod pipe;
pub mod through;
