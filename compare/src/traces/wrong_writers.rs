//! Writers with one rule wrong each. What the writer is held to must catch each (writer.rs).

use crate::library::calls::Library;
use crate::library::mock::Mock;
use crate::model::record::{HEAD_BYTES, Record, Recorded};
use crate::model::replay::BAD;
use crate::model::rules::Right;
use crate::traces::writer::{RECORD_BYTES, UNWRITTEN};

pub fn right(buffer: &mut [u8], asked: &Recorded, length: &mut u32) -> u32 {
    Mock(Right).record(buffer, asked, length)
}

/// The record of another call, or 16.
fn of(other: Option<Recorded>, buffer: &mut [u8], length: &mut u32) -> u32 {
    match other {
        Some(other) => right(buffer, &other, length),
        None => {
            *length = 0;
            BAD
        }
    }
}

/// A change made from another.
fn changed(
    asked: &Recorded,
    how: impl Fn(&mut u32, &mut u32, &mut Vec<u32>, &mut Vec<u8>),
) -> Option<Recorded> {
    let mut other = asked.clone();
    if let Recorded::Call(Record::Create { block, offset, named, data }) = &mut other {
        how(block, offset, named, data);
    }
    Some(other)
}

/// A joint call made from another.
fn joint(asked: &Recorded, how: impl Fn(&mut u32, &mut u32, &mut u32)) -> Option<Recorded> {
    let mut other = asked.clone();
    if let Recorded::CompleteWrite { x, y, first } = &mut other {
        how(x, y, first);
    }
    Some(other)
}

/// Writes both records of a joint call, where there are two, in the other order.
fn write_first(buffer: &mut [u8], asked: &Recorded, length: &mut u32) -> u32 {
    let refusal = right(buffer, asked, length);
    if refusal == 0 && matches!(asked, Recorded::CompleteWrite { first: 0, .. }) {
        buffer[..*length as usize].rotate_left(HEAD_BYTES + 1);
    }
    refusal
}

pub type Wrong = fn(&mut [u8], &Recorded, &mut u32) -> u32;

/// Writers with one rule wrong each.
pub const WRONG: [(&str, Wrong); 28] = [
    ("length low byte first", |b, r, l| {
        let refusal = right(b, r, l);
        if refusal == 0 {
            b.swap(1, 2);
        }
        refusal
    }),
    ("clears the rest", |b, r, l| {
        let refusal = right(b, r, l);
        if refusal == 0 {
            b[*l as usize..].fill(0);
        }
        refusal
    }),
    ("refused, clears the buffer", |b, r, l| {
        let refusal = right(b, r, l);
        if refusal != 0 {
            b.fill(0);
        }
        refusal
    }),
    ("refused, leaves the length", |b, r, l| {
        let refusal = right(b, r, l);
        if refusal != 0 {
            *l = UNWRITTEN;
        }
        refusal
    }),
    ("length of the value", |b, r, l| {
        let refusal = right(b, r, l);
        *l = l.saturating_sub(HEAD_BYTES as u32);
        refusal
    }),
    ("16 before 1", |b, r, l| if r.bytes().is_none() { of(None, b, l) } else { right(b, r, l) }),
    ("a longer buffer taken", |b, r, l| {
        let exact = b.len().min(RECORD_BYTES);
        right(&mut b[..exact], r, l)
    }),
    ("1,200 refused", |b, r, l| {
        of(Some(r.clone()).filter(|r| r.bytes().is_none_or(|bytes| bytes.len() < RECORD_BYTES)), b, l)
    }),
    ("block in a byte", |b, r, l| of(changed(r, |block, _, _, _| *block %= 256), b, l)),
    ("offset in two bytes", |b, r, l| of(changed(r, |_, offset, _, _| *offset %= 65_536), b, l)),
    ("256 numbers are none", |b, r, l| {
        of(changed(r, |_, _, named, _| named.truncate(named.len() % 256)), b, l)
    }),
    ("data cut off", |b, r, l| {
        of(changed(r, |_, _, _, data| data.truncate(65_536 % data.len().max(1))), b, l)
    }),
    ("blocks above 63 refused", |b, r, l| {
        of(changed(r, |block, _, _, _| *block = if *block > 63 { 256 } else { *block }), b, l)
    }),
    ("data above 64 refused", |b, r, l| {
        of(changed(r, |_, _, _, data| data.resize(if data.len() > 64 { 2_000 } else { data.len() }, 0)), b, l)
    }),
    ("no data refused", |b, r, l| {
        of(changed(r, |block, _, _, data| *block = if data.is_empty() { 256 } else { *block }), b, l)
    }),
    ("numbers low byte first", |b, r, l| {
        of(changed(r, |_, _, named, _| named.iter_mut().for_each(|n| *n = n.swap_bytes())), b, l)
    }),
    ("complete written as write", |b, r, l| match r {
        Recorded::Call(Record::Complete { block }) => {
            right(b, &Recorded::Call(Record::Write { block: *block }), l)
        }
        _ => right(b, r, l),
    }),
    ("joint: always two records", |b, r, l| of(joint(r, |_, _, first| *first = 0), b, l)),
    ("joint: always one record", |b, r, l| of(joint(r, |_, _, first| *first = 14), b, l)),
    ("joint: the blocks swapped", |b, r, l| of(joint(r, |x, y, _| std::mem::swap(x, y)), b, l)),
    ("joint: the write first", write_first),
    ("joint: 16 by x alone", |b, r, l| of(joint(r, |_, y, _| *y %= 256), b, l)),
    ("joint: 16 by x alone, the completion written", |b, r, l| {
        of(joint(r, |_, y, first| *first = if *y > 255 { 14 } else { *first }), b, l)
    }),
    ("joint: 16 by y alone", |b, r, l| of(joint(r, |x, _, _| *x %= 256), b, l)),
    ("joint: 16 by y though not tried", |b, r, l| {
        of(joint(r, |x, y, _| *x = if *y > 255 { 256 } else { *x }), b, l)
    }),
    ("joint: the first answer by its low byte", |b, r, l| of(joint(r, |_, _, first| *first %= 256), b, l)),
    ("joint: only 14 and not tried are refusals", |b, r, l| {
        of(joint(r, |_, _, first| *first = if [14, u32::MAX].contains(first) { 14 } else { 0 }), b, l)
    }),
    ("joint: the length of one record", |b, r, l| {
        let refusal = right(b, r, l);
        if matches!(r, Recorded::CompleteWrite { .. }) {
            *l = (*l).min(HEAD_BYTES as u32 + 1);
        }
        refusal
    }),
];
