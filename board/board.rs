//! The write-before cache for Rust: a thin wrapper over libboard.a, proved in crates/board. Copy it into a crate that
//! links the archive; "your part" in board.h holds here too. The sizes are types, so refusal 1 and "no table for its length"
//! cannot come; every other refusal is answered as `Err` with its number, and nothing else is tested here.

pub const TABLE: usize = 2056;
pub const IMAGE: usize = 16384;
pub const UNDO: usize = 1024;
pub const BLOCK: usize = 256;
pub const RECORD: usize = 1203;

/// `BOARD_NOT_TRIED` of board.h.
const NOT_TRIED: u32 = u32::MAX;

/// Kept by the caller, over sleep together with the image and the undo area; board.h has the layout.
pub type Table = [u8; TABLE];

/// A refusal number in words, as `board_words` of board.h has them.
pub fn words(refusal: u32) -> &'static str {
    match refusal {
        0 => "granted",
        1 => "a lent buffer has not its exact size",
        2 => "no table, or a table that is not sound",
        3 => "block above 63",
        4 => "data length 0 or above 64",
        5 => "offset + length above 256",
        6 => "more than 8 named numbers",
        7 => "a named or asked number was never issued",
        8 => "no number is left, and the change joins no patch",
        9 => "no free slot, and the change joins no patch",
        10 => "would be soft, and all 16 rooms are taken",
        11 => "a patch of the block is in flight",
        12 => "no patch of the block waits",
        13 => "some wait, and none may go",
        14 => "no patch of the block is in flight",
        15 => "first number 0 or above 1,000,000,000",
        16 => "the call fits no record",
        NOT_TRIED => "not tried",
        _ => "no refusal has this number",
    }
}

#[derive(Clone, Copy, Debug, PartialEq, Eq)]
pub enum Hold {
    Hard,
    Soft { room: u32 },
}

#[derive(Clone, Copy, Debug, PartialEq, Eq)]
pub enum State {
    Waiting,
    InFlight,
    Committed,
}

/// What the write of a `complete_write` came to: the set of slots sent, the refusal, or that completing was refused before it.
#[derive(Clone, Copy, Debug, PartialEq, Eq)]
pub enum Second {
    Granted(u64),
    Refused(u32),
    NotTried,
}

/// The functions as board.h has them, for buffers that are no arrays of the exact size: those are refused by number.
/// Nothing checks these declarations against the archive; the bench of the repository calls through them.
pub mod raw {
    unsafe extern "C" {
        pub fn board_open(table: *mut u8, table_len: usize, first: u32) -> u32;
        pub fn board_create(
            table: *mut u8, table_len: usize, image: *mut u8, image_len: usize, undo: *mut u8, undo_len: usize,
            block: u32, offset: u32, bytes: *const u8, bytes_len: usize, named: *const u32, named_len: usize,
            number: *mut u32, hold: *mut u32,
        ) -> u32;
        pub fn board_write(
            table: *mut u8, table_len: usize, image: *const u8, image_len: usize, undo: *const u8, undo_len: usize,
            handed: *mut u8, handed_len: usize, block: u32, set: *mut u64,
        ) -> u32;
        pub fn board_complete(table: *mut u8, table_len: usize, block: u32) -> u32;
        pub fn board_complete_write(
            table: *mut u8, table_len: usize, image: *const u8, image_len: usize, undo: *const u8, undo_len: usize,
            handed: *mut u8, handed_len: usize, x: u32, y: u32, second: *mut u32, set: *mut u64,
        ) -> u32;
        pub fn board_ask(table: *const u8, table_len: usize, asked: u32, state: *mut u32) -> u32;
        pub fn board_count(table: *const u8, table_len: usize, block: u32, count: *mut u32) -> u32;
        pub fn board_record_open(record: *mut u8, record_len: usize, first: u32, length: *mut u32) -> u32;
        pub fn board_record_create(
            record: *mut u8, record_len: usize, block: u32, offset: u32, bytes: *const u8, bytes_len: usize,
            named: *const u32, named_len: usize, length: *mut u32,
        ) -> u32;
        pub fn board_record_write(record: *mut u8, record_len: usize, block: u32, length: *mut u32) -> u32;
        pub fn board_record_complete(record: *mut u8, record_len: usize, block: u32, length: *mut u32) -> u32;
        pub fn board_record_complete_write(
            record: *mut u8, record_len: usize, x: u32, y: u32, first: u32, length: *mut u32,
        ) -> u32;
        pub fn board_record_cut(record: *mut u8, record_len: usize, landed: u64, length: *mut u32) -> u32;
    }
}

use raw::{board_ask, board_complete, board_complete_write, board_count, board_create, board_open, board_write};
use raw::{board_record_complete, board_record_complete_write, board_record_create};
use raw::{board_record_cut, board_record_open, board_record_write};

fn granted<T>(refusal: u32, answer: T) -> Result<T, u32> {
    if refusal == 0 { Ok(answer) } else { Err(refusal) }
}

/// The next number of a table: what to open at after a deep sleep or a cut ("old numbers" in board.h).
pub fn next(table: &Table) -> u32 {
    u32::from_le_bytes([table[4], table[5], table[6], table[7]])
}

/// An empty table whose first number is `first`. Refused 15, `table` is the empty one with first 1.
pub fn open(table: &mut Table, first: u32) -> Result<(), u32> {
    // SAFETY: a reference is valid for its array, and the callee keeps no pointer. So in each function below, where the
    // borrow checker besides keeps the lent arrays apart.
    granted(unsafe { board_open(table.as_mut_ptr(), TABLE, first) }, ())
}

/// A change, after all changes answered so far with the numbers named: its number, and hard or soft. A hard one may join a waiting
/// patch of its block and is answered that patch's number ("joining" in board.h). Refused 2 to 10, but 8 and 9 not where it joins.
pub fn create(
    table: &mut Table, image: &mut [u8; IMAGE], undo: &mut [u8; UNDO], block: u32, offset: u32, bytes: &[u8], named: &[u32],
) -> Result<(u32, Hold), u32> {
    let (mut number, mut hold) = (0, 0);
    let refusal = unsafe {
        board_create(
            table.as_mut_ptr(), TABLE, image.as_mut_ptr(), IMAGE, undo.as_mut_ptr(), UNDO, block, offset,
            bytes.as_ptr(), bytes.len(), named.as_ptr(), named.len(), &mut number, &mut hold,
        )
    };
    granted(refusal, (number, if hold < 2 { Hold::Hard } else { Hold::Soft { room: hold - 2 } }))
}

/// The bytes to send to the block now, in `handed`, and the set of slots sent. Refused 2, 3, 11 to 13.
pub fn write(
    table: &mut Table, image: &[u8; IMAGE], undo: &[u8; UNDO], handed: &mut [u8; BLOCK], block: u32,
) -> Result<u64, u32> {
    let mut set = 0;
    let refusal = unsafe {
        board_write(
            table.as_mut_ptr(), TABLE, image.as_ptr(), IMAGE, undo.as_ptr(), UNDO, handed.as_mut_ptr(), BLOCK, block, &mut set,
        )
    };
    granted(refusal, set)
}

/// The block has landed. Refused 2, 3, 14.
pub fn complete(table: &mut Table, block: u32) -> Result<(), u32> {
    granted(unsafe { board_complete(table.as_mut_ptr(), TABLE, block) }, ())
}

/// Block `x` has landed, and block `y` is to go: `complete` of `x`, refused 2, 3, 14, and then, on the table that this gave, `write`
/// of `y`, refused 3, 11 to 13. Where only the write is refused the completion stands, and `handed` keeps its bytes.
pub fn complete_write(
    table: &mut Table, image: &[u8; IMAGE], undo: &[u8; UNDO], handed: &mut [u8; BLOCK], x: u32, y: u32,
) -> (Result<(), u32>, Second) {
    let (mut second, mut set) = (0, 0);
    let first = unsafe {
        board_complete_write(
            table.as_mut_ptr(), TABLE, image.as_ptr(), IMAGE, undo.as_ptr(), UNDO, handed.as_mut_ptr(), BLOCK, x, y,
            &mut second, &mut set,
        )
    };
    let second = match second { 0 => Second::Granted(set), NOT_TRIED => Second::NotTried, refusal => Second::Refused(refusal) };
    (granted(first, ()), second)
}

/// Where the patch with the number is, and so all changes answered it; an old number has committed. Refused 2, 7.
pub fn ask(table: &Table, asked: u32) -> Result<State, u32> {
    let mut state = 0;
    let refusal = unsafe { board_ask(table.as_ptr(), TABLE, asked, &mut state) };
    granted(refusal, match state { 1 => State::Waiting, 2 => State::InFlight, _ => State::Committed })
}

/// How many patches of the block wait; the changes of one number are one patch. Refused 2, 3.
pub fn count(table: &Table, block: u32) -> Result<u32, u32> {
    let mut count = 0;
    let refusal = unsafe { board_count(table.as_ptr(), TABLE, block, &mut count) };
    granted(refusal, count)
}

/// What a record is made in; one serves for all ("recording" in board.h).
pub type Record = [u8; RECORD];

/// The bytes to append to the trace: the first of the buffer, as many as the library said.
fn recorded(record: &Record, refusal: u32, length: u32) -> Result<&[u8], u32> {
    granted(refusal, &record[..length as usize])
}

/// The record of `open`. Never refused.
pub fn record_open(record: &mut Record, first: u32) -> Result<&[u8], u32> {
    let mut length = 0;
    let refusal = unsafe { board_record_open(record.as_mut_ptr(), RECORD, first, &mut length) };
    recorded(record, refusal, length)
}

/// The record of `create`. Refused 16.
pub fn record_create<'a>(
    record: &'a mut Record, block: u32, offset: u32, bytes: &[u8], named: &[u32],
) -> Result<&'a [u8], u32> {
    let mut length = 0;
    let refusal = unsafe {
        board_record_create(
            record.as_mut_ptr(), RECORD, block, offset, bytes.as_ptr(), bytes.len(), named.as_ptr(), named.len(), &mut length,
        )
    };
    recorded(record, refusal, length)
}

/// The record of `write`. Refused 16.
pub fn record_write(record: &mut Record, block: u32) -> Result<&[u8], u32> {
    let mut length = 0;
    let refusal = unsafe { board_record_write(record.as_mut_ptr(), RECORD, block, &mut length) };
    recorded(record, refusal, length)
}

/// The record of `complete`. Refused 16.
pub fn record_complete(record: &mut Record, block: u32) -> Result<&[u8], u32> {
    let mut length = 0;
    let refusal = unsafe { board_record_complete(record.as_mut_ptr(), RECORD, block, &mut length) };
    recorded(record, refusal, length)
}

/// The records of the calls that a `complete_write` made, end to end; `first` is its first answer. Refused 16.
pub fn record_complete_write(record: &mut Record, x: u32, y: u32, first: Result<(), u32>) -> Result<&[u8], u32> {
    let (mut length, first) = (0, first.err().unwrap_or(0));
    let refusal = unsafe { board_record_complete_write(record.as_mut_ptr(), RECORD, x, y, first, &mut length) };
    recorded(record, refusal, length)
}

/// The record that ends a trace: the supply was cut, and bit b of `landed` is set when block b's write in flight landed. Never
/// refused.
pub fn record_cut(record: &mut Record, landed: u64) -> Result<&[u8], u32> {
    let mut length = 0;
    let refusal = unsafe { board_record_cut(record.as_mut_ptr(), RECORD, landed, &mut length) };
    recorded(record, refusal, length)
}
