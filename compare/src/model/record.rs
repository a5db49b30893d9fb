//! The records of a trace, by request c: a tag, the value's length in two bytes with the high byte first, and the value. Here they
//! are written; replay.rs reads them. A joint call has none of its own: by request d the calls that it made are recorded.

/// No value is longer.
pub const LONGEST_VALUE: usize = 1_200;
/// Tag and length.
pub const HEAD_BYTES: usize = 3;

/// A call, or the cut, with all that is recorded of it. It may be one that fits no record.
#[derive(Clone, PartialEq, Eq, Debug)]
pub enum Record {
    Open {
        first: u32,
    },
    Create {
        block: u32,
        offset: u32,
        named: Vec<u32>,
        data: Vec<u8>,
    },
    Write {
        block: u32,
    },
    Complete {
        block: u32,
    },
    /// Bit b is set where block b's write in flight landed.
    Cut {
        landed: u64,
    },
}

impl Record {
    pub fn tag(&self) -> u8 {
        match self {
            Record::Open { .. } => 1,
            Record::Create { .. } => 2,
            Record::Write { .. } => 3,
            Record::Complete { .. } => 4,
            Record::Cut { .. } => 5,
        }
    }

    /// Its bytes; none where it fits no record, which the writer refuses.
    pub fn bytes(&self) -> Option<Vec<u8>> {
        let value = self.value()?;
        if value.len() > LONGEST_VALUE { None } else { Some(framed(self.tag(), &value)) }
    }

    fn value(&self) -> Option<Vec<u8>> {
        match self {
            Record::Open { first } => Some(first.to_be_bytes().to_vec()),
            Record::Create { block, offset, named, data } => {
                let mut value = vec![byte(*block)?];
                value.extend(u16::try_from(*offset).ok()?.to_be_bytes());
                value.push(u8::try_from(named.len()).ok()?);
                value.extend(named.iter().flat_map(|number| number.to_be_bytes()));
                value.extend(data);
                Some(value)
            }
            Record::Write { block } | Record::Complete { block } => Some(vec![byte(*block)?]),
            Record::Cut { landed } => Some(landed.to_be_bytes().to_vec()),
        }
    }
}

/// What the writer is asked for.
#[derive(Clone, PartialEq, Eq, Debug)]
pub enum Recorded {
    Call(Record),
    /// A joint call, with its first answer.
    CompleteWrite {
        x: u32,
        y: u32,
        first: u32,
    },
}

impl Recorded {
    /// The calls that were made. A write was, where completing was not refused.
    pub fn made(&self) -> Vec<Record> {
        match self {
            Recorded::Call(record) => vec![record.clone()],
            Recorded::CompleteWrite { x, y, first } => {
                let write = if *first == 0 { Some(Record::Write { block: *y }) } else { None };
                [Record::Complete { block: *x }].into_iter().chain(write).collect()
            }
        }
    }

    /// The bytes of the calls made, end to end; none where one of them fits no record.
    pub fn bytes(&self) -> Option<Vec<u8>> {
        let records: Option<Vec<Vec<u8>>> = self.made().iter().map(Record::bytes).collect();
        Some(records?.concat())
    }
}

fn byte(block: u32) -> Option<u8> {
    u8::try_from(block).ok()
}

/// A value behind its head. What the two bytes of the length cannot say is left out of them.
pub fn framed(tag: u8, value: &[u8]) -> Vec<u8> {
    let [high, low] = (value.len() as u16).to_be_bytes();
    [&[tag, high, low], value].concat()
}
