//! Spoils a proper call in one to three ways, so that refusals are reached and their order counts.

use crate::model::table::Table;
use crate::orders::random::Random;
use crate::orders::steps::{Buffer, Call, Step, exact_size};

pub fn spoil(random: &mut Random, table: &Table, mut step: Step) -> Step {
    let faults = 1 + random.below(3);
    for _ in 0..faults {
        step = spoil_once(random, table, step);
    }
    step
}

fn spoil_once(random: &mut Random, table: &Table, mut step: Step) -> Step {
    match &mut step.call {
        Call::Open { first } => *first = random.pick(&[0, 1_000_000_001, u32::MAX, 1 << 31]),
        Call::Create { block, offset, data, named } => match random.below(6) {
            0 => *block = wrong_block(random),
            1 => *data = random_length(random),
            2 => *offset = wrong_offset(random, data.len()),
            3 => *named = many_names(random, table),
            4 => named.push(wrong_number(random, table)),
            _ => return lend_oddly(random, table, step, &[Buffer::Image, Buffer::Undo, Buffer::Table]),
        },
        Call::Write { block } => {
            if random.percent(30) {
                *block = wrong_block(random);
            } else {
                return lend_oddly(
                    random,
                    table,
                    step,
                    &[Buffer::Image, Buffer::Undo, Buffer::Handed, Buffer::Table],
                );
            }
        }
        Call::CompleteWrite { x, y } => match random.below(6) {
            0 => *x = wrong_block(random),
            1 | 2 => *y = wrong_block(random),
            3 => *x = *y,
            _ => {
                let buffers = [Buffer::Image, Buffer::Undo, Buffer::Handed, Buffer::Table];
                return lend_oddly(random, table, step, &buffers);
            }
        },
        Call::Complete { block } | Call::Count { block } => {
            if random.percent(60) {
                *block = wrong_block(random);
            } else {
                return lend_oddly(random, table, step, &[Buffer::Table]);
            }
        }
        Call::Ask { number } => {
            if random.percent(80) {
                *number = wrong_number(random, table);
            } else {
                return lend_oddly(random, table, step, &[Buffer::Table]);
            }
        }
    }
    step
}

fn wrong_block(random: &mut Random) -> u32 {
    random.pick(&[64, 65, 127, 128, 255, 256, 1 << 24, 1 << 31, u32::MAX])
}

fn random_length(random: &mut Random) -> Vec<u8> {
    let length = random.pick(&[0, 0, 64, 65, 65, 66, 128, 256, 257, 320, 1000, 65_537]);
    random.bytes(length)
}

/// Offsets at and past the end, and those where offset + length would wrap in 32 bits.
fn wrong_offset(random: &mut Random, length: usize) -> u32 {
    let length = length as u32;
    let past = 257u32.saturating_sub(length);
    let wrap = if length == 0 { u32::MAX } else { u32::MAX - (length - 1) };
    let wrap_in = if length < 2 { u32::MAX } else { wrap + 1 };
    random.pick(&[past, 255, 256, 257, 65_536, 1 << 31, wrap, wrap_in, u32::MAX - 255, u32::MAX])
}

/// A number that was never issued: 0, or one not below next. Where nothing was issued since the opening, next is first itself.
fn wrong_number(random: &mut Random, table: &Table) -> u32 {
    random.pick(&[0, 0, table.next, table.next, table.next.saturating_add(1), u32::MAX])
}

/// Nine numbers or more, issued or not, at times with some from before the opening.
fn many_names(random: &mut Random, table: &Table) -> Vec<u32> {
    let count = random.pick(&[9, 9, 10, 16, 65, 255, 256, 264, 264, 300]);
    let last = table.next.saturating_sub(1).max(table.first);
    let from = random.pick(&[1, table.first]).min(last);
    (0..count).map(|_| random.between(from, last)).collect()
}

fn lend_oddly(random: &mut Random, table: &Table, step: Step, buffers: &[Buffer]) -> Step {
    let which = random.pick(buffers);
    if step.odd.iter().any(|&(other, _)| other == which) {
        return step;
    }
    let exact = exact_size(table.setting, which);
    let size = random.pick(&[0, exact / 2, exact - 1, exact + 1, exact * 2]);
    step.lending(which, size)
}
