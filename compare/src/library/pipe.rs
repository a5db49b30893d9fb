//! The library behind a pipe: serve.c makes the calls through board.h and keeps the buffers; its head says what goes over the pipe.

use crate::library::calls::Library;
use crate::model::record::{Record, Recorded};
use crate::model::table::Kind;
use std::cell::{Cell, RefCell};
use std::io::{BufReader, BufWriter, Read, Result, Write};
use std::process::{ChildStdin, ChildStdout, Command, Stdio};

const BUFFERS: usize = 4;
/// Sent with every call; one that has fewer sends 0 for the rest.
const NUMBERS: usize = 3;
const NOT_LENT: u32 = u32::MAX;

/// How a buffer is lent to a call.
enum Lend<'a> {
    No,
    ToRead(&'a [u8]),
    ToWrite(&'a mut [u8]),
}

use Lend::{No, ToRead, ToWrite};

/// What is asked for: a call, the record with a tag, or the records of a joint call.
#[derive(Clone, Copy, Debug)]
enum Asked {
    Call(Kind),
    Record(u8),
    Records,
}

impl Asked {
    /// As serve.c numbers them.
    fn kind(self) -> u32 {
        match self {
            Asked::Call(Kind::CompleteWrite) => 11,
            Asked::Call(kind) => kind as u32,
            Asked::Record(tag) => 5 + u32::from(tag),
            Asked::Records => 12,
        }
    }
}

/// What the pipe brings back besides the buffers.
struct Answer {
    refusal: u32,
    number: u32,
    hold: u32,
    set: u64,
    state: u32,
    count: u32,
    second: u32,
    harm: Option<&'static str>,
    took: u32,
}

struct Server {
    input: BufWriter<ChildStdin>,
    output: BufReader<ChildStdout>,
    /// The buffers as the program has them: table, image, undo area, block handed out.
    kept: [Vec<u8>; BUFFERS],
}

pub struct Pipe {
    server: RefCell<Server>,
    harm: Cell<Option<&'static str>>,
    took: Cell<u32>,
}

impl Pipe {
    pub fn start(program: &mut Command) -> Result<Pipe> {
        let mut child = program.stdin(Stdio::piped()).stdout(Stdio::piped()).spawn()?;
        let (Some(input), Some(output)) = (child.stdin.take(), child.stdout.take()) else {
            return Err(std::io::ErrorKind::BrokenPipe.into());
        };
        let (input, output) = (BufWriter::new(input), BufReader::new(output));
        let server = RefCell::new(Server { input, output, kept: Default::default() });
        Ok(Pipe { server, harm: Cell::new(None), took: Cell::new(0) })
    }

    /// Nanoseconds that the last call took, read on the other side of the pipe.
    pub fn took(&self) -> u32 {
        self.took.get()
    }

    /// Makes one call. A pipe that breaks ends the run: there is no library any more.
    fn call(
        &self,
        asked: Asked,
        numbers: &[u32],
        lent: [Lend; BUFFERS],
        data: &[u8],
        named: &[u32],
    ) -> Answer {
        let mut server = self.server.borrow_mut();
        match server.ask(asked, numbers, &lent, data, named).and_then(|()| server.answer(lent)) {
            Ok(answer) => {
                self.harm.set(answer.harm);
                self.took.set(answer.took);
                answer
            }
            Err(error) => {
                println!("the program behind the pipe gave no answer to {asked:?}: {error}");
                println!("FAILED");
                std::process::exit(1);
            }
        }
    }
}

impl Server {
    fn ask(
        &mut self,
        asked: Asked,
        numbers: &[u32],
        lent: &[Lend; BUFFERS],
        data: &[u8],
        named: &[u32],
    ) -> Result<()> {
        self.put(asked.kind())?;
        for place in 0..NUMBERS {
            self.put(numbers.get(place).copied().unwrap_or(0))?;
        }
        for (which, lend) in lent.iter().enumerate() {
            match lend {
                No => self.put(NOT_LENT)?,
                ToRead(bytes) => self.lend(which, bytes)?,
                ToWrite(bytes) => self.lend(which, bytes)?,
            }
        }
        self.put(data.len() as u32)?;
        self.input.write_all(data)?;
        self.put(4 * named.len() as u32)?;
        for &number in named {
            self.put(number)?;
        }
        self.input.flush()
    }

    /// Sends what differs from the bytes that the program has.
    fn lend(&mut self, which: usize, bytes: &[u8]) -> Result<()> {
        let kept = &mut self.kept[which];
        // A buffer of another length is sent whole: what the program has past the old end is no part of it.
        let same_length = kept.len() == bytes.len();
        let (from, to) = if same_length { changed_part(kept, bytes) } else { (0, bytes.len()) };
        bytes.clone_into(kept);
        for number in [bytes.len(), from, to - from] {
            self.put(number as u32)?;
        }
        self.input.write_all(&bytes[from..to])
    }

    fn answer(&mut self, mut lent: [Lend; BUFFERS]) -> Result<Answer> {
        let mut numbers = [0; 8];
        for number in &mut numbers {
            *number = self.get()?;
        }
        let [refusal, number, hold, low, high, state, count, second] = numbers;
        let set = u64::from(high) << 32 | u64::from(low);
        let mut harm = None;
        for (kept, lend) in self.kept.iter_mut().zip(&mut lent) {
            let (at, count) = (get(&mut self.output)? as usize, get(&mut self.output)? as usize);
            let part = kept.get_mut(at..at + count).ok_or(std::io::ErrorKind::InvalidData)?;
            self.output.read_exact(part)?;
            match lend {
                ToWrite(bytes) => bytes[at..at + count].copy_from_slice(part),
                ToRead(_) if count > 0 => harm = Some("a buffer lent to be read was written"),
                No if count > 0 => harm = Some("a buffer that was not lent was written"),
                No | ToRead(_) => {}
            }
        }
        if self.get()? != 0 {
            harm = Some("a byte beside a buffer was written");
        }
        let took = self.get()?;
        Ok(Answer { refusal, number, hold, set, state, count, second, harm, took })
    }

    fn put(&mut self, number: u32) -> Result<()> {
        self.input.write_all(&number.to_le_bytes())
    }

    fn get(&mut self) -> Result<u32> {
        get(&mut self.output)
    }
}

fn get(output: &mut BufReader<ChildStdout>) -> Result<u32> {
    let mut bytes = [0; 4];
    output.read_exact(&mut bytes)?;
    Ok(u32::from_le_bytes(bytes))
}

/// From the first byte that differs to past the last, of two of the same length.
fn changed_part(old: &[u8], new: &[u8]) -> (usize, usize) {
    if old == new {
        return (0, 0);
    }
    let differs = |&i: &usize| old[i] != new[i];
    let from = (0..new.len()).find(differs).unwrap_or(0);
    let to = (0..new.len()).rev().find(differs).map_or(0, |last| last + 1);
    (from, to)
}

impl Library for Pipe {
    fn open(&self, table: &mut [u8], first: u32) -> u32 {
        self.call(Asked::Call(Kind::Open), &[first], [ToWrite(table), No, No, No], &[], &[]).refusal
    }

    fn create(
        &self,
        table: &mut [u8],
        image: &mut [u8],
        undo: &mut [u8],
        block: u32,
        offset: u32,
        data: &[u8],
        named: &[u32],
        number: &mut u32,
        hold: &mut u32,
    ) -> u32 {
        let lent = [ToWrite(table), ToWrite(image), ToWrite(undo), No];
        let answer = self.call(Asked::Call(Kind::Create), &[block, offset], lent, data, named);
        (*number, *hold) = (answer.number, answer.hold);
        answer.refusal
    }

    fn write(
        &self,
        table: &mut [u8],
        image: &[u8],
        undo: &[u8],
        handed: &mut [u8],
        block: u32,
        set: &mut u64,
    ) -> u32 {
        let lent = [ToWrite(table), ToRead(image), ToRead(undo), ToWrite(handed)];
        let answer = self.call(Asked::Call(Kind::Write), &[block], lent, &[], &[]);
        *set = answer.set;
        answer.refusal
    }

    fn complete(&self, table: &mut [u8], block: u32) -> u32 {
        self.call(Asked::Call(Kind::Complete), &[block], [ToWrite(table), No, No, No], &[], &[]).refusal
    }

    fn complete_write(
        &self,
        table: &mut [u8],
        image: &[u8],
        undo: &[u8],
        handed: &mut [u8],
        x: u32,
        y: u32,
        second: &mut u32,
        set: &mut u64,
    ) -> u32 {
        let lent = [ToWrite(table), ToRead(image), ToRead(undo), ToWrite(handed)];
        let answer = self.call(Asked::Call(Kind::CompleteWrite), &[x, y], lent, &[], &[]);
        (*second, *set) = (answer.second, answer.set);
        answer.refusal
    }

    fn ask(&self, table: &[u8], asked: u32, state: &mut u32) -> u32 {
        let answer = self.call(Asked::Call(Kind::Ask), &[asked], [ToRead(table), No, No, No], &[], &[]);
        *state = answer.state;
        answer.refusal
    }

    fn count(&self, table: &[u8], block: u32, count: &mut u32) -> u32 {
        let answer = self.call(Asked::Call(Kind::Count), &[block], [ToRead(table), No, No, No], &[], &[]);
        *count = answer.count;
        answer.refusal
    }

    fn record(&self, buffer: &mut [u8], recorded: &Recorded, length: &mut u32) -> u32 {
        let lent = [No, No, No, ToWrite(buffer)];
        let answer = match recorded {
            Recorded::CompleteWrite { x, y, first } => {
                self.call(Asked::Records, &[*x, *y, *first], lent, &[], &[])
            }
            Recorded::Call(record) => {
                let (numbers, data, named) = parts(record);
                self.call(Asked::Record(record.tag()), &numbers, lent, data, named)
            }
        };
        *length = answer.count;
        answer.refusal
    }

    fn harm(&self) -> Option<&'static str> {
        self.harm.take()
    }
}

/// What is sent of a call to be recorded: its numbers, its data and its names.
fn parts(record: &Record) -> ([u32; 2], &[u8], &[u32]) {
    match record {
        Record::Open { first } => ([*first, 0], &[], &[]),
        Record::Create { block, offset, named, data } => ([*block, *offset], data, named),
        Record::Write { block } | Record::Complete { block } => ([*block, 0], &[], &[]),
        Record::Cut { landed } => ([(landed >> 32) as u32, *landed as u32], &[], &[]),
    }
}
