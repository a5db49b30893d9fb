//! The ways to what is under test: the library linked in or behind a pipe, the plain program behind a pipe, or a model that
//! stands in for the library.

use crate::library::calls::Library;
use crate::library::linked::Linked;
use crate::library::mock::Mock;
use crate::library::pipe::Pipe;
use crate::model::rules::Right;
use std::path::Path;
use std::process::Command;

#[derive(Clone, Copy, PartialEq, Eq)]
pub enum Through {
    Link,
    Pipe,
    Plain,
    Model,
}

/// What is under test, and its name; or why it cannot be had.
pub fn library(way: Through) -> Result<(&'static str, Box<dyn Library>), String> {
    match way {
        Through::Link => Ok(("libboard.a linked in", Box::new(Linked::default()))),
        Through::Pipe => Ok(("libboard.a behind a pipe", Box::new(board()?))),
        Through::Plain => Ok(("the plain program behind a pipe", Box::new(plain()?))),
        Through::Model => Ok(("none, the model stands in for it", Box::new(Mock(Right)))),
    }
}

/// The library behind a pipe.
pub fn board() -> Result<Pipe, String> {
    started("board-serve")
}

/// The plain program behind a pipe.
pub fn plain() -> Result<Pipe, String> {
    started("plain-serve")
}

/// Starts a program that compare/build wrote, under the one that BOARD_RUN names, where it names one.
fn started(name: &str) -> Result<Pipe, String> {
    let program = Path::new(env!("CARGO_MANIFEST_DIR")).join("../target").join(name);
    let mut command = match std::env::var_os("BOARD_RUN") {
        Some(run) => Command::new(run),
        None => Command::new(&program),
    };
    if command.get_program() != program {
        command.arg(&program);
    }
    Pipe::start(&mut command).map_err(|error| format!("{command:?}: {error} (sh compare/build makes it)"))
}
