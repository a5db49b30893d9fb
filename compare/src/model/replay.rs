//! What a replay prints for a trace, by request c: a line for each record, from a zero image, until the input ends or is bad.
//!
//! As in rules.rs every rule is a method of a trait with its body here; `Right` takes them all as they are, and a wrong replay
//! replaces one of them. How many changes are on the store is judged from a list of all changes accepted: each is looked up by its
//! number when the power goes. Nothing is counted along the way.

use crate::model::record::{LONGEST_VALUE, Record};
use crate::model::rules::{Model, Right};
use crate::model::setting::Setting;
use crate::model::table::*;

/// The number that stands behind "bad", and that the writer answers.
pub const BAD: u32 = 16;

/// Why input is bad. One number and one line stand for all of them.
#[derive(Clone, Copy, PartialEq, Eq, PartialOrd, Ord, Debug)]
pub enum Bad {
    Empty,
    Tag,
    TooLong,
    Form,
    EndsInHead,
    EndsInValue,
    OpenMissing,
    OpenAgain,
    AfterCut,
}

#[derive(Clone, Copy, PartialEq, Eq, PartialOrd, Ord, Debug)]
pub enum Ended {
    Bad(Bad),
    Cut,
    /// The input ended behind a record that is no cut.
    End,
}

pub struct Printed {
    pub text: String,
    pub ended: Ended,
}

/// A change accepted: the number that it was answered, and its block.
pub struct Accepted {
    pub number: u32,
    pub block: u32,
}

/// How far a replay has come.
pub struct Run {
    /// None before the opening.
    pub table: Option<Table>,
    image: Vec<u8>,
    undo: Vec<u8>,
    handed: Vec<u8>,
    pub accepted: Vec<Accepted>,
    pub cut: bool,
}

impl Run {
    /// From a zero image.
    pub fn new() -> Run {
        Run {
            table: None,
            image: vec![0; IMAGE_BYTES],
            undo: vec![0; undo_bytes(Setting::Board)],
            handed: vec![0; BLOCK_BYTES],
            accepted: Vec::new(),
            cut: false,
        }
    }
}

/// A record, and the input behind it.
pub type Taken<'a> = (Record, &'a [u8]);

pub trait Replay {
    /// The rules of the calls.
    fn calls(&self) -> &dyn Model {
        &Right
    }

    // ---- Records: what the bytes say ----

    fn length(&self, high: u8, low: u8) -> usize {
        256 * usize::from(high) + usize::from(low)
    }

    fn longest_value(&self) -> usize {
        LONGEST_VALUE
    }

    /// A number of two, four or eight bytes.
    fn number(&self, bytes: &[u8]) -> u64 {
        bytes.iter().fold(0, |number, &byte| 256 * number + u64::from(byte))
    }

    /// The first record of the input.
    fn record<'a>(&self, input: &'a [u8]) -> Result<Taken<'a>, Bad> {
        let [tag, high, low, behind @ ..] = input else { return Err(Bad::EndsInHead) };
        let length = self.length(*high, *low);
        if !(1..=5).contains(tag) {
            return Err(Bad::Tag);
        }
        if length > self.longest_value() {
            return Err(Bad::TooLong);
        }
        let (value, behind) = behind.split_at_checked(length).ok_or(Bad::EndsInValue)?;
        Ok((self.formed(*tag, value).ok_or(Bad::Form)?, behind))
    }

    /// The value taken by its tag's form; none where it has not that form.
    fn formed(&self, tag: u8, value: &[u8]) -> Option<Record> {
        match (tag, value) {
            (1, [_, _, _, _]) => Some(Record::Open { first: self.number(value) as u32 }),
            (2, [block, high, low, count, rest @ ..]) => {
                let (named, data) = self.names_and_data(*count, rest)?;
                let offset = self.number(&[*high, *low]) as u32;
                Some(Record::Create { block: u32::from(*block), offset, named, data })
            }
            (3, [block]) => Some(Record::Write { block: u32::from(*block) }),
            (4, [block]) => Some(Record::Complete { block: u32::from(*block) }),
            (5, [_, _, _, _, _, _, _, _]) => Some(Record::Cut { landed: self.number(value) }),
            _ => None,
        }
    }

    /// The numbers, four bytes each, and what is left.
    fn names_and_data(&self, count: u8, bytes: &[u8]) -> Option<(Vec<u32>, Vec<u8>)> {
        let (named, data) = bytes.split_at_checked(4 * usize::from(count))?;
        Some((named.chunks(4).map(|four| self.number(four) as u32).collect(), data.to_vec()))
    }

    // ---- The trace: which record may stand where ----

    /// The next record; none where the input may end and does.
    fn next<'a>(&self, run: &Run, input: &'a [u8]) -> Result<Option<Taken<'a>>, Bad> {
        if input.is_empty() {
            return if run.table.is_some() { Ok(None) } else { Err(Bad::Empty) };
        }
        if run.cut {
            return Err(Bad::AfterCut);
        }
        let taken = self.record(input)?;
        match self.misplaced(run, &taken.0) {
            Some(bad) => Err(bad),
            None => Ok(Some(taken)),
        }
    }

    /// Open comes first and never again.
    fn misplaced(&self, run: &Run, record: &Record) -> Option<Bad> {
        match (run.table.is_some(), matches!(record, Record::Open { .. })) {
            (false, false) => Some(Bad::OpenMissing),
            (true, true) => Some(Bad::OpenAgain),
            (false, true) | (true, false) => None,
        }
    }

    // ---- Lines ----

    fn first_place(&self) -> u64 {
        1
    }

    fn printed(&self, input: &[u8]) -> Printed {
        let (mut run, mut left, mut text) = (Run::new(), input, String::new());
        for place in self.first_place().. {
            let taken = match self.next(&run, left) {
                Ok(Some(taken)) => taken,
                Ok(None) => break,
                Err(bad) => {
                    text += &self.bad_line(place, bad);
                    return Printed { text, ended: Ended::Bad(bad) };
                }
            };
            text += &format!("{place} {}\n", self.line(&mut run, &taken.0));
            left = taken.1;
        }
        Printed { text, ended: if run.cut { Ended::Cut } else { Ended::End } }
    }

    fn bad_line(&self, place: u64, _bad: Bad) -> String {
        format!("{place} bad {BAD}\n")
    }

    /// Carries a record out: its line, without the place.
    fn line(&self, run: &mut Run, record: &Record) -> String {
        match record {
            Record::Open { first } => {
                let (judged, opened) = self.calls().open(*first);
                run.table = Some(opened);
                self.said("open", judged.map(|()| String::new()))
            }
            Record::Create { block, offset, named, data } => {
                let change = Change { block: *block, offset: *offset, data, named };
                self.said("create", self.created(run, &change))
            }
            Record::Write { block } => self.said("write", self.written(run, *block)),
            Record::Complete { block } => {
                let judged = run.table.as_mut().map_or(Ok(()), |table| self.calls().complete(table, *block));
                self.said("complete", judged.map(|()| String::new()))
            }
            Record::Cut { landed } => {
                run.cut = true;
                format!("cut {}", self.on_the_store(run, *landed))
            }
        }
    }

    /// Word and answer; granted, what the call adds.
    fn said(&self, word: &str, judged: Result<String, Refusal>) -> String {
        match judged {
            Ok(more) => format!("{word} 0{more}"),
            Err(refusal) => format!("{word} {}", refusal.number()),
        }
    }

    /// Granted: number, and hard or soft.
    fn created(&self, run: &mut Run, change: &Change) -> Result<String, Refusal> {
        let Some(table) = &mut run.table else { return Ok(String::new()) };
        let (number, state) = self.calls().create(table, &mut run.image, &mut run.undo, change)?;
        run.accepted.push(Accepted { number, block: change.block });
        let hold = if state == State::WaitingHard { "hard" } else { "soft" };
        Ok(format!(" {number} {hold}"))
    }

    /// Granted: how many patches went.
    fn written(&self, run: &mut Run, block: u32) -> Result<String, Refusal> {
        let Some(table) = &mut run.table else { return Ok(String::new()) };
        let sent = self.calls().write(table, &run.image, &run.undo, &mut run.handed, block)?;
        Ok(format!(" {}", self.went(run, &sent)))
    }

    fn went(&self, _run: &Run, sent: &Slots) -> u64 {
        sent.len() as u64
    }

    // ---- The cut ----

    /// How many of the changes accepted are on the store when the power goes.
    fn on_the_store(&self, run: &Run, landed: u64) -> usize {
        run.accepted.iter().filter(|change| self.has_landed(run, change, landed)).count()
    }

    /// In no slot, its write has completed; in flight, its block's bit says it; a change that waits is not there.
    fn has_landed(&self, run: &Run, change: &Accepted, landed: u64) -> bool {
        let Some(table) = &run.table else { return false };
        match table.slot_of(change.number) {
            None => true,
            Some(slot) => table.slots[slot].in_flight() && self.bit(landed, change.block),
        }
    }

    fn bit(&self, landed: u64, block: u32) -> bool {
        landed.checked_shr(block).is_some_and(|bits| bits & 1 == 1)
    }
}

/// The replay as the papers have it.
impl Replay for Right {}
