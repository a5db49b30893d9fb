//! What prints a trace's lines: replay, or the model in its place.

use crate::library::through::Through;
use crate::model::replay::Replay;
use crate::model::rules::Right;
use crate::traces::program::{Pieces, Program};

pub enum Tested {
    Program(Program),
    Model,
}

impl Tested {
    pub fn through(way: Through) -> Result<Tested, String> {
        match way {
            Through::Model => Ok(Tested::Model),
            Through::Link | Through::Pipe | Through::Plain => Program::find().map(Tested::Program),
        }
    }

    /// All that it prints for this input; or why it printed nothing that counts.
    pub fn printed(&self, input: &[u8], pieces: Pieces) -> Result<String, String> {
        match self {
            Tested::Model => Ok(Right.printed(input).text),
            Tested::Program(program) => {
                String::from_utf8(program.run(input, pieces)?).map_err(|error| error.to_string())
            }
        }
    }
}
