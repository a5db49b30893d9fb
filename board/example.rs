//! The session of example.c through the Rust wrapper. The borrow checker keeps the lent arrays apart; the program prints the
//! same lines and, called with a file name, keeps the same trace there. board/build holds it to both.

mod board;

use board::{BLOCK, Hold, IMAGE, RECORD, Record, Second, TABLE, Table, UNDO};

struct Radio {
    table: Table, // in memory that survives sleep
    image: [u8; IMAGE],
    undo: [u8; UNDO],
    record: Record,
    trace: Vec<u8>,
}

impl Radio {
    fn open(&mut self, first: u32) -> Result<(), u32> {
        self.trace.extend(board::record_open(&mut self.record, first)?);
        board::open(&mut self.table, first)
    }

    /// Makes a change and says its number, 0 where it is refused.
    fn change(&mut self, at: u32, offset: u32, bytes: &[u8], after: &[u32]) -> Result<u32, u32> {
        self.trace.extend(board::record_create(&mut self.record, at, offset, bytes, after)?);
        let answer = board::create(&mut self.table, &mut self.image, &mut self.undo, at, offset, bytes, after);
        let (refusal, number, hold) = match answer {
            Ok((number, Hold::Hard)) => (0, number, 1),
            Ok((number, Hold::Soft { room })) => (0, number, 2 + room),
            Err(refusal) => (refusal, 0, 0),
        };
        println!("create on block {at}: {}, number {number}, hold {hold}", board::words(refusal));
        Ok(number)
    }

    /// Sends what may go of a block.
    fn flush(&mut self, from: u32) -> Result<(), u32> {
        self.trace.extend(board::record_write(&mut self.record, from)?);
        let mut bytes = [0; BLOCK];
        match board::write(&mut self.table, &self.image, &self.undo, &mut bytes, from) {
            Ok(set) => send(from, &bytes, set),
            Err(refusal) => println!("write of block {from}: {}", board::words(refusal)),
        }
        Ok(())
    }

    /// The driver says that a block has landed.
    fn complete(&mut self, landed: u32) -> Result<(), u32> {
        self.trace.extend(board::record_complete(&mut self.record, landed)?);
        board::complete(&mut self.table, landed)
    }

    /// The driver says that a block has landed, and is given the next one at once: one call, recorded as the two that it made.
    fn go_on(&mut self, landed: u32, from: u32) -> Result<(), u32> {
        let mut bytes = [0; BLOCK];
        let (first, second) =
            board::complete_write(&mut self.table, &self.image, &self.undo, &mut bytes, landed, from);
        self.trace.extend(board::record_complete_write(&mut self.record, landed, from, first)?);
        match second {
            Second::Granted(set) => send(from, &bytes, set),
            Second::Refused(refusal) => println!("write of block {from}: {}", board::words(refusal)),
            Second::NotTried => println!("write of block {from}: not tried"),
        }
        first
    }

    /// The trace ends: nothing is in flight. It is handed out, and the next one begins.
    fn cut(&mut self) -> Result<Vec<u8>, u32> {
        self.trace.extend(board::record_cut(&mut self.record, 0)?);
        Ok(std::mem::take(&mut self.trace))
    }
}

/// Stands for the radio's own driver.
fn send(to: u32, bytes: &[u8; BLOCK], set: u64) {
    let [a, b, c, d, ..] = bytes;
    println!("block {to} goes, slots {set:x}: {a:02x} {b:02x} {c:02x} {d:02x} ..");
}

/// The station is stored; gives the number of its entry.
fn store(radio: &mut Radio) -> Result<u32, u32> {
    let name = radio.change(1, 0, b"KRTL", &[])?;
    let entry = radio.change(2, 0, b"\x01", &[name])?;
    radio.change(2, 1, b"\x63", &[])?; // the preset's key: joins the entry, and has its number
    radio.flush(2)?; // 13: the entry follows the name, which has not landed
    radio.flush(1)?;
    radio.flush(2)?; // 13 still: the name is only in flight
    radio.go_on(1, 2)?; // the name has landed, so the entry may go
    radio.complete(2)?;
    Ok(entry)
}

/// Where the entry is: committed means that it and what joined it are on the store.
fn say(radio: &Radio, entry: u32) -> Result<(), u32> {
    let state = board::ask(&radio.table, entry)? as u32 + 1;
    let waiting = board::count(&radio.table, 2)?;
    println!("entry: state {state}, {waiting} waiting on block 2");
    Ok(())
}

/// Gives the trace of the first power-up.
fn session(radio: &mut Radio) -> Result<Vec<u8>, u32> {
    radio.open(1)?;
    let entry = store(radio)?;
    say(radio, entry)?;
    let trace = radio.cut()?;
    // At rest: the radio may sleep. It keeps its next number, and at start-up fills the image from the store.
    let next = board::next(&radio.table);
    radio.open(next)?;
    say(radio, entry)?;
    radio.change(3, 0, b"NEWS", &[entry])?; // the menu's old number is good, and the change follows nothing
    radio.flush(3)?;
    Ok(trace)
}

fn main() -> std::io::Result<()> {
    let mut radio =
        Radio { table: [0; TABLE], image: [0; IMAGE], undo: [0; UNDO], record: [0; RECORD], trace: Vec::new() };
    match (session(&mut radio), std::env::args().nth(1)) {
        (Ok(trace), Some(file)) => std::fs::write(file, trace),
        (Ok(_), None) => Ok(()),
        (Err(refusal), _) => {
            println!("refused: {}", board::words(refusal));
            std::process::exit(1)
        }
    }
}
