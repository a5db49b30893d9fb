//! The writer against the model's records: every field at, below and above what a record can hold, and random calls, into buffers of
//! the exact size and of others. A refusal changes no byte, and no byte behind a record changes.

use crate::library::calls::Library;
use crate::model::record::{HEAD_BYTES, LONGEST_VALUE, Record, Recorded};
use crate::model::replay::{BAD, Replay};
use crate::model::rules::Right;
use crate::model::table::{NOT_TRIED, Refusal};
use crate::orders::random::Random;
use std::collections::BTreeSet;

const BLOCKS: [u32; 9] = [0, 1, 63, 64, 255, 256, 257, 1 << 24, u32::MAX];
const OFFSETS: [u32; 8] = [0, 1, 255, 256, 65_535, 65_536, 65_537, u32::MAX];
/// How many numbers. 256 is 0 in one byte, and so are four times 16,384 in two.
const NAMED: [usize; 10] = [0, 1, 8, 9, 254, 255, 256, 257, 512, 16_384];
const DATA: [usize; 8] = [0, 1, 64, 65, 1_196, 1_197, 65_536, 65_537];
const FIRST: [u32; 6] = [0, 1, 0x0102_0304, 1_000_000_000, 1_000_000_001, u32::MAX];
const LANDED: [u64; 6] = [0, 1, 1 << 63, 0x0102_0304_0506_0708, u64::MAX, u64::MAX >> 1];

/// First answers of a joint call: those there are, and others that are 0 in their low digits.
const ANSWERS: [u32; 9] = [0, 2, 3, 14, 1, 256, 65_536, 1 << 31, NOT_TRIED];

/// What the writer is asked for at its edges: every call, and joint calls with every pair of blocks.
fn edges() -> Vec<Recorded> {
    let mut edges: Vec<Recorded> = calls().into_iter().map(Recorded::Call).collect();
    for x in BLOCKS {
        for y in BLOCKS {
            edges.extend(ANSWERS.map(|first| Recorded::CompleteWrite { x, y, first }));
        }
    }
    edges
}

/// Every field at its edges, with the others as they may be.
fn calls() -> Vec<Record> {
    let mut edges: Vec<Record> = FIRST.map(|first| Record::Open { first }).to_vec();
    edges.extend(LANDED.map(|landed| Record::Cut { landed }));
    edges.extend(BLOCKS.map(|block| Record::Write { block }));
    edges.extend(BLOCKS.map(|block| Record::Complete { block }));
    edges.extend(BLOCKS.map(|block| change(block, 2, 3, 4)));
    edges.extend(OFFSETS.map(|offset| change(1, offset, 3, 4)));
    for many in NAMED {
        let left = (LONGEST_VALUE - 4).saturating_sub(4 * many);
        let around = [left, left + 1, left + 2, left.saturating_sub(1)];
        edges.extend(DATA.into_iter().chain(around).map(|size| change(1, 2, many, size)));
    }
    edges
}

fn change(block: u32, offset: u32, many: usize, size: usize) -> Record {
    let named = (0..many as u32).map(|place| 0x0102_0304 * (1 + place % 60)).collect();
    Record::Create { block, offset, named, data: (0..size).map(|place| place as u8 ^ 0xA5).collect() }
}

fn any_block(random: &mut Random) -> u32 {
    if random.percent(10) { random.pick(&BLOCKS) } else { random.between(0, 255) }
}

/// Any call, joint ones among them; one in some fits no record.
fn any(random: &mut Random) -> Recorded {
    if random.percent(20) {
        let (x, y) = (any_block(random), any_block(random));
        return Recorded::CompleteWrite { x, y, first: random.pick(&ANSWERS) };
    }
    Recorded::Call(any_call(random))
}

fn any_call(random: &mut Random) -> Record {
    let block = any_block(random);
    match random.below(8) {
        0 => Record::Open { first: random.number() as u32 },
        1 => Record::Write { block },
        2 => Record::Complete { block },
        3 => Record::Cut { landed: random.number() },
        _ => {
            let offset = if random.percent(5) { random.pick(&OFFSETS) } else { random.between(0, 65_535) };
            let many = random.pick(&[0, 0, 1, 2, 8, 9, 40, 255, 256]);
            let named = (0..many).map(|_| random.number() as u32).collect();
            let size = random.pick(&[0, 1, 5, 64, 65, 150, 176, 177, 1_000, 1_200]);
            Record::Create { block, offset, named, data: random.bytes(size) }
        }
    }
}

pub const RECORD_BYTES: usize = HEAD_BYTES + LONGEST_VALUE;
const ODD_SIZES: [usize; 7] = [0, 1, 3, 1_200, 1_202, 1_204, 2_406];
/// Stands in the length before the call, so that one left unwritten shows.
pub const UNWRITTEN: u32 = 0xDEAD_BEEF;
const SEED: u64 = 5;
const CALLS: usize = 20_000;

/// Writes what is asked for into the buffer, and its length; answers the refusal, or what it did that it may not.
type Writer<'a> = &'a dyn Fn(&mut [u8], &Recorded, &mut u32) -> Result<u32, String>;

/// Holds one call to the model; gives the refusal.
fn judged(writer: Writer, asked: &Recorded, lent: &[u8]) -> Result<u32, String> {
    let (mut buffer, mut length) = (lent.to_vec(), UNWRITTEN);
    let refusal = writer(&mut buffer, asked, &mut length)?;
    let mut wanted = lent.to_vec();
    let (answer, said) = match asked.bytes() {
        _ if lent.len() != RECORD_BYTES => (Refusal::BufferSize.number(), 0),
        None => (BAD, 0),
        Some(bytes) => {
            wanted[..bytes.len()].copy_from_slice(&bytes);
            (0, bytes.len())
        }
    };
    if (refusal, length as usize) != (answer, said) {
        return Err(format!("answer {refusal}, length {length}; wanted {answer} and {said}"));
    }
    if let Some(at) = (0..wanted.len()).find(|&at| buffer[at] != wanted[at]) {
        return Err(format!("byte {at} of the buffer is {}, wanted {}", buffer[at], wanted[at]));
    }
    if refusal == 0 && read_back(&buffer[..said]) != Some(asked.made()) {
        return Err(String::from("what was written is not read back"));
    }
    Ok(refusal)
}

/// The records that stand end to end.
fn read_back(mut bytes: &[u8]) -> Option<Vec<Record>> {
    let mut records = Vec::new();
    while !bytes.is_empty() {
        let (record, rest) = Right.record(bytes).ok()?;
        records.push(record);
        bytes = rest;
    }
    Some(records)
}

/// Writes records of calls at the edges and of random ones; gives how many, or what went wrong first, and at which.
pub fn run(library: &dyn Library) -> Result<usize, (usize, String)> {
    run_on(&|buffer, asked, length| {
        let refusal = library.record(buffer, asked, length);
        library.harm().map_or(Ok(refusal), |harm| Err(String::from(harm)))
    })
}

fn run_on(writer: Writer) -> Result<usize, (usize, String)> {
    let mut random = Random::new(SEED);
    let (edges, mut reached) = (edges(), BTreeSet::new());
    let all = 2 * edges.len() + CALLS;
    for call in 0..all {
        let asked = edges.get(call / 2).cloned().unwrap_or_else(|| any(&mut random));
        // Each edge once in a buffer of the exact size, and once in another; so are some of the random calls.
        let odd = if call < 2 * edges.len() { call % 2 == 1 } else { random.percent(10) };
        let size = if odd { random.pick(&ODD_SIZES) } else { RECORD_BYTES };
        let lent = random.bytes(size);
        let refusal =
            judged(writer, &asked, &lent).map_err(|what| (call + 1, format!("{what}: {}", shown(&asked))))?;
        reached.insert((tags(&asked), refusal));
    }
    let never = |tags: &[u8], refusal| refusal == BAD && (tags == [1] || tags == [5]);
    for tags in [&[1][..], &[2], &[3], &[4], &[5], &[JOINT, 4], &[JOINT, 4, 3]] {
        let was = |refusal| reached.contains(&(tags.to_vec(), refusal));
        if let Some(refusal) = [0, 1, BAD].into_iter().find(|&r| !never(tags, r) && !was(r)) {
            return Err((all, format!("NOT REACHED: {refusal} for tags {tags:?}")));
        }
    }
    Ok(all)
}

/// Stands before the tags of a joint call's records.
const JOINT: u8 = 0;

fn tags(asked: &Recorded) -> Vec<u8> {
    let joint = matches!(asked, Recorded::CompleteWrite { .. }).then_some(JOINT);
    joint.into_iter().chain(asked.made().iter().map(Record::tag)).collect()
}

/// A call with the sizes of its lists alone.
fn shown(asked: &Recorded) -> String {
    match asked {
        Recorded::Call(Record::Create { block, offset, named, data }) => {
            format!("create {block} {offset}, {} numbers, {} bytes", named.len(), data.len())
        }
        other => format!("{other:?}"),
    }
}

#[cfg(test)]
mod tests {
    use super::*;
    use crate::traces::wrong_writers::{WRONG, right};

    /// A joint call fits by the calls that it made: x, and y where the write was tried.
    fn all_fit(asked: &Recorded) -> bool {
        match asked {
            Recorded::Call(record) => fits(record),
            Recorded::CompleteWrite { x, y, first } => *x <= 255 && (*first != 0 || *y <= 255),
        }
    }

    /// What fits, by the request's words: a block of one byte, an offset of two, a count of one, and a value of at most 1,200.
    fn fits(record: &Record) -> bool {
        match record {
            Record::Open { .. } | Record::Cut { .. } => true,
            Record::Write { block } | Record::Complete { block } => *block <= 255,
            Record::Create { block, offset, named, data } => {
                let value = 4 + 4 * named.len() + data.len();
                *block <= 255 && *offset <= 65_535 && named.len() <= 255 && value <= 1_200
            }
        }
    }

    #[test]
    fn every_wrong_writer_is_caught() {
        assert_eq!(run_on(&|b, r, l| Ok(right(b, r, l))).err(), None);
        for (name, wrong) in WRONG {
            assert!(run_on(&|b, r, l| Ok(wrong(b, r, l))).is_err(), "{name} is not caught");
        }
    }

    #[test]
    fn what_was_written_is_read_back() {
        let mut random = Random::new(1);
        let (mut written, mut refused) = (0, 0);
        for asked in edges().into_iter().chain((0..20_000).map(|_| any(&mut random))) {
            let bytes = asked.bytes();
            assert_eq!(bytes.is_some(), all_fit(&asked), "{asked:?}");
            let Some(mut bytes) = bytes else {
                refused += 1;
                continue;
            };
            assert!(bytes.len() <= HEAD_BYTES + LONGEST_VALUE);
            bytes.extend([5, 0]);
            let mut left = &bytes[..];
            for made in asked.made() {
                let (record, rest) = Right.record(left).expect("a record");
                assert_eq!(record, made);
                left = rest;
            }
            assert_eq!(left, [5, 0]);
            written += 1;
        }
        assert!(written > 1_000 && refused > 1_000, "{written} written, {refused} refused");
    }
}
