//! Makes a failing order short, and prints it as lines that can be pasted into pasted.rs.

use crate::judge::cover::Cover;
use crate::judge::run::{Failure, Order, Pair, Run, replay};
use crate::model::bytes::{SLOT_BYTES, TABLE_BYTES, decode, encoded};
use crate::model::setting::Setting;
use crate::model::table::{NOT_TRIED, SLOTS, Slot, Table};
use crate::orders::steps::{Answer, Call, Step};

/// Leaves out calls, names, slots of the table and the filling while the order still fails.
pub fn shrink(pair: Pair, order: Order, failure: Failure) -> (Order, Failure) {
    let mut shortest = (order, failure);
    shortest.0.steps.truncate(shortest.1.at + 1);
    while let Some(smaller) = smaller(pair, &shortest.0) {
        shortest = smaller;
    }
    shortest
}

/// The first smaller order that still fails, cut off after its failure.
fn smaller(pair: Pair, order: &Order) -> Option<(Order, Failure)> {
    let calls = fewer_calls(order).chain(without_create(pair, order));
    let mut candidates =
        calls.chain(fewer_names(order)).chain(plainer_start(order)).chain(plainer_data(order));
    candidates.find_map(|mut candidate| {
        let failure = replay(pair, &candidate)?;
        candidate.steps.truncate(failure.at + 1);
        Some((candidate, failure))
    })
}

/// The order without a run of calls: long runs first, then single calls.
fn fewer_calls(order: &Order) -> impl Iterator<Item = Order> {
    let count = order.steps.len();
    let runs = [count / 2, count / 4, count / 8, 3, 1];
    runs.into_iter().filter(|&run| run > 0).flat_map(move |run| {
        (0..count).step_by(run).map(move |from| {
            let mut shorter = order.clone();
            shorter.steps.drain(from..count.min(from + run));
            shorter
        })
    })
}

/// The order without one create that was given a number of its own: it is named no more, higher ones shift down.
fn without_create(pair: Pair, order: &Order) -> impl Iterator<Item = Order> {
    let given = numbers_given(pair, order);
    (0..given.len()).filter_map(move |at| {
        let gone =
            given[at].filter(|number| given.iter().filter(|other| **other == Some(*number)).count() == 1)?;
        let shift = |number: &mut u32| *number -= u32::from(*number > gone);
        let mut shorter = order.clone();
        shorter.steps.remove(at);
        for step in &mut shorter.steps[at..] {
            if let Some(named) = step.call.names() {
                named.retain(|&number| number != gone);
                named.iter_mut().for_each(shift);
            }
            step.call.asked().into_iter().for_each(shift);
        }
        Some(shorter)
    })
}

/// The number each call was given, where it was given one.
fn numbers_given(pair: Pair, order: &Order) -> Vec<Option<u32>> {
    let mut run = Run::start(pair, order);
    let mut cover = Cover::default();
    let given = order.steps.iter().map(|step| run.step(step, &mut cover).ok());
    given.map(|answer| answer.map(|answer| answer.number).filter(|&number| number != 0)).collect()
}

/// The order with the bytes of one change all the same.
fn plainer_data(order: &Order) -> impl Iterator<Item = Order> {
    (0..order.steps.len()).filter_map(move |at| {
        let mut plainer = order.clone();
        plainer.steps[at].call.data()?.fill(at as u8);
        (plainer.steps[at] != order.steps[at]).then_some(plainer)
    })
}

/// The order without one of the names, or without what came before a call.
fn fewer_names(order: &Order) -> impl Iterator<Item = Order> {
    (0..order.steps.len()).flat_map(move |at| {
        let names = order.steps[at].clone().call.names().map_or(0, |named| named.len());
        let unnamed = (0..names).map(move |name| {
            let mut fewer = order.clone();
            fewer.steps[at].call.names().map(|named| named.remove(name));
            fewer
        });
        let uncut = order.steps[at].after_cut.is_some().then(|| {
            let mut fewer = order.clone();
            fewer.steps[at].after_cut = None;
            fewer
        });
        unnamed.chain(uncut)
    })
}

fn plainer_start(order: &Order) -> impl Iterator<Item = Order> {
    let unfilled = (order.fill != 0).then(|| Order { fill: 0, ..order.clone() });
    let unslotted = (0..SLOTS).filter_map(move |slot| {
        let table = without_slot(&order.table, slot);
        (table != order.table).then(|| Order { table, ..order.clone() })
    });
    unfilled.into_iter().chain(unslotted)
}

/// The table's bytes with one slot all zero and in nobody's befores.
fn without_slot(bytes: &[u8], slot: usize) -> Vec<u8> {
    let mut bytes = bytes.to_vec();
    for (i, place) in bytes[8..].chunks_mut(SLOT_BYTES).enumerate() {
        if i == slot {
            place.fill(0);
        }
        place[24 + slot / 8] &= !(1 << (slot % 8));
    }
    bytes
}

pub fn print(order: &Order, failure: &Failure) {
    println!("{}", printed(order, failure));
}

/// The order as lines to paste, and what failed.
pub fn printed(order: &Order, failure: &Failure) -> String {
    let mut lines = vec![String::from("    Order {"), table_lines(&order.table)];
    lines.push(format!("        fill: {}, cuts: {},", order.fill, order.cuts));
    lines.push(String::from("        steps: vec!["));
    lines.extend(order.steps.iter().map(|step| format!("            {},", line(step))));
    lines.push(String::from("        ],\n    }"));
    lines.push(format!("at its call {} ({}):", failure.at + 1, failure.what));
    lines.push(format!("  library: {}", said(&failure.library)));
    lines.extend(failure.model.iter().map(|model| format!("  model:   {}", said(model))));
    lines.join("\n")
}

/// The table that an order starts from, as lines to paste.
pub fn table_lines(bytes: &[u8]) -> String {
    if *bytes == vec![0; TABLE_BYTES] {
        return String::from("        table: vec![0; TABLE_BYTES],");
    }
    match decode(Setting::Board, bytes) {
        Some(table) if encoded(&table) == bytes => slot_lines(&table),
        _ => {
            let places = (0..bytes.len()).filter(|&i| bytes[i] != 0).map(|i| (i, bytes[i]));
            format!("        table: bytes(&{:?}),", places.collect::<Vec<_>>())
        }
    }
}

fn slot_lines(table: &Table) -> String {
    let mut lines = vec![format!("        table: table({}, {}, &[", table.first, table.next)];
    for (i, slot) in table.slots.iter().enumerate().filter(|(_, slot)| **slot != Slot::free()) {
        let befores: Vec<usize> = slot.befores.iter().copied().collect();
        let numbers = format!("{}, {}, {}, {}", slot.number, slot.block, slot.offset, slot.length);
        lines.push(format!("            ({i}, State::{:?}, {numbers}, &{befores:?}),", slot.state));
    }
    lines.push(String::from("        ]),"));
    lines.join("\n")
}

/// The call as a line to paste.
pub fn line(step: &Step) -> String {
    let mut line = match &step.call {
        Call::Open { first } => format!("open({first})"),
        Call::Create { block, offset, data, named } => {
            format!("create({block}, {offset}, &{}, &{})", list(data), list(named))
        }
        Call::Write { block } => format!("write({block})"),
        Call::Complete { block } => format!("complete({block})"),
        Call::Ask { number } => format!("ask({number})"),
        Call::Count { block } => format!("count({block})"),
        Call::CompleteWrite { x, y } => format!("complete_write({x}, {y})"),
    };
    for (buffer, size) in &step.odd {
        line += &format!(".lending(Buffer::{buffer:?}, {size})");
    }
    if let Some(landed) = &step.after_cut {
        line += &format!(".after_cut(&{landed:?})");
    }
    line
}

fn list<T: PartialEq + std::fmt::Debug>(values: &[T]) -> String {
    match values {
        [first, .., _] if values.iter().all(|value| value == first) => {
            format!("[{first:?}; {}]", values.len())
        }
        _ => format!("{values:?}"),
    }
}

pub fn said(answer: &Answer) -> String {
    let Answer { refusal, number, hold, set, state, count, second } = answer;
    let second = match *second {
        NOT_TRIED => String::from("not tried"),
        second => second.to_string(),
    };
    format!(
        "refusal {refusal}, number {number}, hold {hold}, set {set:#x}, state {state}, count {count}, second {second}"
    )
}
