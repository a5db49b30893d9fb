//! The model finds the largest set in two ways. They must agree, and the set must be the one of
//! the definition: it may go, and every subset that may go lies in it.

use crate::model::rules::{Model, Right};
use crate::model::setting::Setting;
use crate::model::table::{Slots, Table};
use crate::orders::random::Random;
use crate::orders::tables;

const TABLES: usize = 4_000;
/// Up to this many waiting patches every subset is tried.
const MOST: usize = 10;

pub fn agree(seed: u64) -> bool {
    let mut random = Random::new(seed);
    let mut compared = 0;
    for _ in 0..TABLES {
        let table = tables::sound(&mut random, Setting::Board);
        let mut blocks: Vec<u32> = table.patches().map(|(_, p)| p.block).collect();
        blocks.dedup();
        for block in blocks.into_iter().take(4) {
            if table.waiting(block).len() <= MOST {
                compared += 1;
                if !same(&table, block) {
                    println!("largest set: the two ways differ for block {block} of {table:?}");
                    return false;
                }
            }
        }
    }
    println!("largest set: both ways agree, and with the definition, {compared} times");
    true
}

fn same(table: &Table, block: u32) -> bool {
    let tried = Right.largest_by_trying(table, block);
    let followed = Right.largest_by_following(table, block);
    tried == followed && Right.may_go(table, block, &tried) && holds_all(table, block, &tried)
}

/// No patch outside the set is in a subset that may go.
fn holds_all(table: &Table, block: u32, largest: &Slots) -> bool {
    let waiting: Vec<usize> = table.waiting(block).into_iter().collect();
    (0..1usize << waiting.len()).all(|choice| {
        let subset: Slots = (0..waiting.len()).filter(|i| choice >> i & 1 == 1).map(|i| waiting[i]).collect();
        !Right.may_go(table, block, &subset) || subset.is_subset(largest)
    })
}
