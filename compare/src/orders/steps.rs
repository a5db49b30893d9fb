//! One call with all it is given, what is lent to it, and what it answers.

use crate::library::calls::Library;
use crate::model::bytes::TABLE_BYTES;
use crate::model::setting::Setting;
use crate::model::table::{BLOCK_BYTES, IMAGE_BYTES, Kind, undo_bytes};
use crate::orders::random::Random;

#[derive(Clone, PartialEq, Debug)]
pub enum Call {
    Open { first: u32 },
    Create { block: u32, offset: u32, data: Vec<u8>, named: Vec<u32> },
    Write { block: u32 },
    Complete { block: u32 },
    Ask { number: u32 },
    Count { block: u32 },
    CompleteWrite { x: u32, y: u32 },
}

#[derive(Clone, Copy, PartialEq, Eq, Debug)]
pub enum Buffer {
    Table,
    Image,
    Undo,
    Handed,
}

/// A call, the buffers lent in another size than the exact one, and what came before it.
#[derive(Clone, PartialEq, Debug)]
pub struct Step {
    pub call: Call,
    pub odd: Vec<(Buffer, usize)>,
    /// The power was cut, of the writes out those of these blocks landed, and the working image was filled from the store.
    pub after_cut: Option<Vec<u32>>,
}

fn step(call: Call) -> Step {
    Step { call, odd: Vec::new(), after_cut: None }
}

pub fn open(first: u32) -> Step {
    step(Call::Open { first })
}

pub fn create(block: u32, offset: u32, data: &[u8], named: &[u32]) -> Step {
    step(Call::Create { block, offset, data: data.to_vec(), named: named.to_vec() })
}

pub fn write(block: u32) -> Step {
    step(Call::Write { block })
}

pub fn complete(block: u32) -> Step {
    step(Call::Complete { block })
}

pub fn ask(number: u32) -> Step {
    step(Call::Ask { number })
}

pub fn count(block: u32) -> Step {
    step(Call::Count { block })
}

pub fn complete_write(x: u32, y: u32) -> Step {
    step(Call::CompleteWrite { x, y })
}

impl Step {
    pub fn lending(mut self, buffer: Buffer, size: usize) -> Step {
        self.odd.push((buffer, size));
        self
    }

    pub fn after_cut(mut self, landed: &[u32]) -> Step {
        self.after_cut = Some(landed.to_vec());
        self
    }

    pub fn kind(&self) -> Kind {
        match self.call {
            Call::Open { .. } => Kind::Open,
            Call::Create { .. } => Kind::Create,
            Call::Write { .. } => Kind::Write,
            Call::Complete { .. } => Kind::Complete,
            Call::Ask { .. } => Kind::Ask,
            Call::Count { .. } => Kind::Count,
            Call::CompleteWrite { .. } => Kind::CompleteWrite,
        }
    }

    /// The calls that were made, each with what it was lent and answered: the call itself, but for a joint one the completion and,
    /// where that was granted, the write.
    pub fn made(&self, answer: &Answer) -> Vec<(Step, Answer)> {
        let Call::CompleteWrite { x, y } = self.call else { return vec![(self.clone(), *answer)] };
        let first = Answer { refusal: answer.refusal, ..Answer::default() };
        let mut made = vec![(Step { call: Call::Complete { block: x }, ..self.clone() }, first)];
        made[0].0.odd.retain(|&(buffer, _)| buffer == Buffer::Table);
        if answer.refusal == 0 {
            let second = Answer { refusal: answer.second, set: answer.set, ..Answer::default() };
            made.push((Step { call: Call::Write { block: y }, ..self.clone() }, second));
        }
        made
    }
}

impl Call {
    /// The numbers that it names.
    pub fn names(&mut self) -> Option<&mut Vec<u32>> {
        match self {
            Call::Create { named, .. } => Some(named),
            Call::Open { .. }
            | Call::Write { .. }
            | Call::Complete { .. }
            | Call::Ask { .. }
            | Call::Count { .. }
            | Call::CompleteWrite { .. } => None,
        }
    }

    /// The number it asks for.
    pub fn asked(&mut self) -> Option<&mut u32> {
        match self {
            Call::Ask { number } => Some(number),
            Call::Open { .. }
            | Call::Create { .. }
            | Call::Write { .. }
            | Call::Complete { .. }
            | Call::Count { .. }
            | Call::CompleteWrite { .. } => None,
        }
    }

    /// The bytes of its change.
    pub fn data(&mut self) -> Option<&mut Vec<u8>> {
        match self {
            Call::Create { data, .. } => Some(data),
            Call::Open { .. }
            | Call::Write { .. }
            | Call::Complete { .. }
            | Call::Ask { .. }
            | Call::Count { .. }
            | Call::CompleteWrite { .. } => None,
        }
    }
}

/// Everything a call answers besides the buffers. What a call does not answer is 0.
#[derive(Clone, Copy, PartialEq, Eq, Debug, Default)]
pub struct Answer {
    pub refusal: u32,
    pub number: u32,
    pub hold: u32,
    pub set: u64,
    pub state: u32,
    pub count: u32,
    /// Of a joint call the write's answer; `refusal` is the completion's.
    pub second: u32,
}

/// The buffers of one side.
#[derive(Clone, PartialEq)]
pub struct Lent {
    pub table: Vec<u8>,
    pub image: Vec<u8>,
    pub undo: Vec<u8>,
    pub handed: Vec<u8>,
}

impl Lent {
    /// Image, undo area and block handed out filled from a seed; all zero for seed 0.
    pub fn filled(setting: Setting, table: &[u8], seed: u64) -> Lent {
        let mut random = Random::new(seed);
        let mut fill = |size| if seed == 0 { vec![0; size] } else { random.bytes(size) };
        Lent {
            table: table.to_vec(),
            image: fill(IMAGE_BYTES),
            undo: fill(undo_bytes(setting)),
            handed: fill(BLOCK_BYTES),
        }
    }

    pub fn buffer(&mut self, which: Buffer) -> &mut Vec<u8> {
        match which {
            Buffer::Table => &mut self.table,
            Buffer::Image => &mut self.image,
            Buffer::Undo => &mut self.undo,
            Buffer::Handed => &mut self.handed,
        }
    }

    /// Cuts or lengthens the buffers that are lent in another size.
    pub fn resize(&mut self, odd: &[(Buffer, usize)]) {
        for &(which, size) in odd {
            self.buffer(which).resize(size, 0xA5);
        }
    }
}

pub fn exact_size(setting: Setting, which: Buffer) -> usize {
    match which {
        Buffer::Table => TABLE_BYTES,
        Buffer::Image => IMAGE_BYTES,
        Buffer::Undo => undo_bytes(setting),
        Buffer::Handed => BLOCK_BYTES,
    }
}

/// Stands in each number lent for an answer, so that one left unwritten shows.
const UNWRITTEN: u32 = 0xDEAD_BEEF;

/// Makes the call.
pub fn play(library: &dyn Library, lent: &mut Lent, call: &Call) -> Answer {
    let mut answer = Answer::default();
    let Lent { table, image, undo, handed } = lent;
    answer.refusal = match call {
        Call::Open { first } => library.open(table, *first),
        Call::Create { block, offset, data, named } => {
            (answer.number, answer.hold) = (UNWRITTEN, UNWRITTEN);
            let (number, hold) = (&mut answer.number, &mut answer.hold);
            library.create(table, image, undo, *block, *offset, data, named, number, hold)
        }
        Call::Write { block } => {
            answer.set = u64::from(UNWRITTEN);
            library.write(table, image, undo, handed, *block, &mut answer.set)
        }
        Call::Complete { block } => library.complete(table, *block),
        Call::Ask { number } => {
            answer.state = UNWRITTEN;
            library.ask(table, *number, &mut answer.state)
        }
        Call::Count { block } => {
            answer.count = UNWRITTEN;
            library.count(table, *block, &mut answer.count)
        }
        Call::CompleteWrite { x, y } => {
            (answer.second, answer.set) = (UNWRITTEN, u64::from(UNWRITTEN));
            let (second, set) = (&mut answer.second, &mut answer.set);
            library.complete_write(table, image, undo, handed, *x, *y, second, set)
        }
    };
    answer
}
