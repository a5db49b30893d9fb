//! Tables with each clause of soundness broken, by every value on the list, in every slot; numbers twice in every pair of slots; and
//! sound tables with every field at its bounds, in every slot. One call on each, each kind in turn.

use crate::judge::cover::Cover;
use crate::judge::run::{Order, Pair, Run};
use crate::judge::shrink;
use crate::model::bytes::encoded;
use crate::model::rules::{Model, Right};
use crate::model::setting::Setting;
use crate::model::table::{KINDS, Kind, LAST_NUMBER, SLOTS, Slots, State, Table};
use crate::orders::steps::{Step, ask, complete, complete_write, count, create, write};
use crate::orders::tables::{BREAKS, full};

/// Every table of the sweep, and whether it is sound.
fn tables() -> impl Iterator<Item = (Table, bool)> {
    broken().map(|table| (table, false)).chain(at_bounds().map(|table| (table, true)))
}

fn broken() -> impl Iterator<Item = Table> {
    let by_value = BREAKS.iter().flat_map(|way| way.values.iter().map(move |&value| (way, value)));
    let in_slots = by_value.flat_map(|(way, value)| {
        (0..SLOTS).map(move |slot| {
            let mut table = full();
            (way.apply)(&mut table, slot, (slot + 5) % SLOTS, value);
            table
        })
    });
    let pairs = (0..SLOTS).flat_map(|i| (0..i).map(move |j| (i, j)));
    in_slots.chain(pairs.map(|(i, j)| {
        let mut table = full();
        table.slots[i].number = table.slots[j].number;
        table
    }))
}

/// Each puts a field of one slot, or the table's own numbers, at a bound.
const BOUNDS: [fn(&mut Table, usize); 12] = [
    |t, i| (t.first, t.slots[i].number) = (1, 1),
    |t, i| t.slots[i].number = t.first,
    |t, i| t.slots[i].number = t.next - 1,
    |t, i| (t.next, t.slots[i].number) = (LAST_NUMBER + 1, LAST_NUMBER),
    |t, i| t.slots[i].block = 0,
    |t, i| t.slots[i].block = 63,
    |t, i| (t.slots[i].offset, t.slots[i].length) = (255, 1),
    |t, i| (t.slots[i].offset, t.slots[i].length) = (192, 64),
    |t, i| (t.slots[i].offset, t.slots[i].length) = (0, 64),
    |t, i| t.slots[i].befores = (0..SLOTS).filter(|&k| k != i).collect::<Slots>(),
    |t, i| {
        t.slots
            .iter_mut()
            .filter(|slot| slot.room().is_some())
            .for_each(|slot| slot.state = State::WaitingHard);
        t.slots[i].state = State::WaitingSoft { room: 0 };
        t.slots[(i + 1) % SLOTS].state = State::WaitingSoft { room: 15 };
    },
    |t, i| {
        *t = Table::empty(Setting::Board, if i % 2 == 0 { 1 } else { LAST_NUMBER });
        t.next = LAST_NUMBER + 1;
    },
];

fn at_bounds() -> impl Iterator<Item = Table> {
    BOUNDS.iter().flat_map(|put| {
        (0..SLOTS).map(move |slot| {
            let mut table = full();
            put(&mut table, slot);
            table
        })
    })
}

/// A call that would not be refused before the table is judged, each kind in turn but open, which judges no table.
fn call(turn: usize, table: &Table) -> Step {
    let block = turn as u32 % 64;
    match KINDS[turn % KINDS.len()] {
        Kind::Open | Kind::Count => count(block),
        Kind::Create => create(block, 8, &[7; 3], &[]),
        Kind::Write => write(block),
        Kind::Complete => complete(block),
        Kind::Ask => ask(table.first),
        Kind::CompleteWrite => complete_write(block, (block + 1) % 64),
    }
}

/// Makes all the calls; gives how many, or what went wrong first, and at which.
pub fn run(pair: Pair, cover: &mut Cover) -> Result<usize, (usize, String)> {
    let mut calls = 0;
    for (table, sound) in tables() {
        let steps = vec![call(calls, &table)];
        let order = Order { table: encoded(&table), fill: 0, cuts: false, steps };
        calls += 1;
        if Right.sound(&table) != sound {
            return Err((calls, format!("the sweep takes this table for {sound} in being sound: {table:?}")));
        }
        if let Err(failure) = Run::start(pair, &order).step(&order.steps[0], cover) {
            return Err((calls, format!("{}\n{}", failure.what, shrink::printed(&order, &failure))));
        }
    }
    Ok(calls)
}
