//! Tells the coverage what a joint call reached as one: how its two answers go together, and what the completion did for the write.
//! What each of the two calls reached is told besides (watch.rs).

use crate::judge::cover::Cover;
use crate::model::rules::{Model, Right};
use crate::model::table::*;
use crate::orders::steps::{Answer, Buffer, Step};

/// What a write of the block would be answered on a table.
fn alone(table: Option<&Table>, step: &Step, block: u32) -> u32 {
    let sizes_wrong = step.odd.iter().any(|(buffer, _)| *buffer != Buffer::Table);
    let no_table = Err(if sizes_wrong { Refusal::BufferSize } else { Refusal::NotSound });
    let asked = Asked { sizes_wrong, block, ..Asked::default() };
    table
        .map_or(no_table, |table| Right.judge(Kind::Write, table, &asked))
        .map_or_else(Refusal::number, |()| 0)
}

/// `table` is the table before the call.
pub fn see(cover: &mut Cover, table: Option<&Table>, step: &Step, (x, y): (u32, u32), answer: &Answer) {
    let before = alone(table, step, y);
    if answer.refusal != 0 {
        cover.add("complete and write: not tried, a write alone would be answered", before);
        when(cover, x == y, "complete and write: the same block, completing refused");
        return;
    }
    cover.add("complete and write: the write answered", answer.second);
    let Some(Ok((table, given))) = table.map(|t| Right.given_by_completing(t, x).map(|given| (t, given)))
    else {
        return;
    };
    when(cover, given.patches().next().is_none(), "complete and write: completed the last patch");
    match answer.second {
        0 => see_written(cover, table, &given, (x, y), before),
        12 => when(cover, x == y, "complete and write: the same block, write refused 12"),
        13 => see_held(cover, table, &given, (x, y)),
        _ => {}
    }
}

fn when(cover: &mut Cover, reached: bool, name: &'static str) {
    if reached {
        cover.add(name, 0);
    }
}

/// Both granted.
fn see_written(cover: &mut Cover, table: &Table, given: &Table, (x, y): (u32, u32), before: u32) {
    when(cover, x != y, "complete and write: both granted, of two blocks");
    when(cover, x == y, "complete and write: both granted, of the same block");
    when(cover, before == 11, "complete and write: granted since completed, 11 before");
    when(cover, before == 13, "complete and write: granted since completed, 13 before");
    let sent = Right.largest_that_may_go(given, y);
    let fewer = before == 0 && Right.largest_that_may_go(table, y) != sent;
    when(cover, fewer, "complete and write: more patches went since completed");
    when(cover, given.waiting(y) != sent, "complete and write: write granted, soft left behind");
}

/// Completed, and none may go.
fn see_held(cover: &mut Cover, table: &Table, given: &Table, (x, y): (u32, u32)) {
    when(cover, x == y, "complete and write: the same block, write refused 13");
    let follows = |table: &Table, others: &Slots| {
        table.waiting(y).into_iter().any(|i| !table.slots[i].befores.is_disjoint(others))
    };
    let flying: Slots = given.patches().filter(|(_, p)| p.in_flight()).map(|(i, _)| i).collect();
    when(cover, follows(given, &flying), "complete and write: write refused 13, held by another in flight");
    let landed = table.in_flight(x);
    when(cover, follows(table, &landed), "complete and write: write refused 13, held by what landed too");
}
