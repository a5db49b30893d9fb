//! The program `replay`, which rt has proved and linked. One process takes one trace.

use std::io::{ErrorKind, Read, Write};
use std::path::{Path, PathBuf};
use std::process::{Child, Command, Stdio};
use std::time::Duration;

pub struct Program(PathBuf);

/// How the input comes to the program.
#[derive(Clone, Copy, Debug)]
pub enum Pieces {
    Whole,
    /// Byte by byte, with a pause behind each: who reads gets a few at a time.
    Bytes,
}

const PAUSE: Duration = Duration::from_micros(100);

impl Program {
    pub fn find() -> Result<Program, String> {
        let program = Path::new(env!("CARGO_MANIFEST_DIR")).join("../crates/replay/out/replay");
        if !program.is_file() {
            return Err(format!("there is no {} (`rt run` in crates/replay makes it)", program.display()));
        }
        Ok(Program(program))
    }

    /// Starts it with both ends piped. It is told nothing but its input.
    pub fn start(&self) -> Result<Child, String> {
        let mut command = Command::new(&self.0);
        command.env_clear().stdin(Stdio::piped()).stdout(Stdio::piped());
        command.spawn().map_err(|error| format!("{command:?}: {error}"))
    }

    /// All that it writes for this input. It must end by itself, and well.
    pub fn run(&self, input: &[u8], pieces: Pieces) -> Result<Vec<u8>, String> {
        let mut child = self.start()?;
        let (stdin, stdout) = (child.stdin.take(), child.stdout.take());
        let mut output = Vec::new();
        let (fed, read) = std::thread::scope(|scope| {
            let feeding = scope.spawn(|| stdin.map_or(Ok(()), |pipe| feed(pipe, input, pieces)));
            let read = stdout.map_or(Ok(0), |mut pipe| pipe.read_to_end(&mut output));
            (feeding.join(), read)
        });
        let ended = child.wait().map_err(|error| error.to_string())?;
        read.map_err(|error| error.to_string())?;
        fed.map_err(|_| String::from("feeding it failed"))?.map_err(|error| error.to_string())?;
        if ended.success() { Ok(output) } else { Err(format!("it ended with {ended}")) }
    }
}

/// Puts the input into the pipe. The program may stop before it has read all of it.
pub fn feed(mut pipe: impl Write, input: &[u8], pieces: Pieces) -> std::io::Result<()> {
    let step = match pieces {
        Pieces::Whole => input.len().max(1),
        Pieces::Bytes => 1,
    };
    for piece in input.chunks(step) {
        match pipe.write_all(piece) {
            Err(error) if error.kind() == ErrorKind::BrokenPipe => return Ok(()),
            other => other?,
        }
        if matches!(pieces, Pieces::Bytes) {
            std::thread::sleep(PAUSE);
        }
    }
    Ok(())
}
