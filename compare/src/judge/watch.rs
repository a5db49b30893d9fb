//! Tells the coverage what a call reached, from the table before it and its answer.

use crate::judge::cover::{Cover, answered, refused_early};
use crate::judge::joint;
use crate::model::bytes::{SLOT_BYTES, TABLE_BYTES, set_of};
use crate::model::rules::{Model, Right};
use crate::model::setting::Setting;
use crate::model::table::*;
use crate::orders::steps::{Answer, Buffer, Call, Step, exact_size};
use std::collections::BTreeSet;

/// `table` is the table before the call, `lent` its bytes as the call got them.
pub fn see(
    cover: &mut Cover,
    setting: Setting,
    table: Option<&Table>,
    lent: &[u8],
    step: &Step,
    answer: &Answer,
) {
    cover.add(answered(step.kind()), answer.refusal);
    if let Call::CompleteWrite { x, y } = step.call {
        joint::see(cover, table, step, (x, y), answer);
        let given = table.and_then(|table| Right.given_by_completing(table, x).ok());
        for ((made, answer), table) in step.made(answer).iter().zip([table, given.as_ref()]) {
            see(cover, setting, table, lent, made, answer);
        }
    }
    for &(buffer, size) in &step.odd {
        see_odd(cover, step.kind(), buffer, size < exact_size(setting, buffer));
    }
    let Some(table) = table else {
        let odd_length = lent.len() != TABLE_BYTES;
        cover.add(if odd_length { "table of another length" } else { "a tag above 4" }, 0);
        return;
    };
    if answer.refusal != 0 {
        see_refused(cover, table, step, answer.refusal);
        return;
    }
    match &step.call {
        Call::Open { .. } | Call::CompleteWrite { .. } => {}
        Call::Create { block, offset, data, named } => {
            let change = Change { block: *block, offset: *offset, data, named };
            see_create(cover, table, &change, answer);
        }
        Call::Write { block } => see_write(cover, table, *block, &set_of(answer.set)),
        Call::Complete { block } => see_complete(cover, table, *block, lent),
        Call::Ask { number } => see_asked(cover, table, *number, answer.state),
        Call::Count { block } => see_count(cover, table, *block, answer.count),
    }
}

fn when(cover: &mut Cover, reached: bool, name: &'static str) {
    if reached {
        cover.add(name, 0);
    }
}

fn see_odd(cover: &mut Cover, kind: Kind, buffer: Buffer, short: bool) {
    let name = match (buffer, short) {
        (Buffer::Table, _) => return,
        (Buffer::Image, true) => "buffer too short: image",
        (Buffer::Image, false) => "buffer too long: image",
        (Buffer::Undo, true) => "buffer too short: undo area",
        (Buffer::Undo, false) => "buffer too long: undo area",
        (Buffer::Handed, true) => "buffer too short: block handed out",
        (Buffer::Handed, false) => "buffer too long: block handed out",
    };
    when(cover, matches!(kind, Kind::Create | Kind::Write), name);
}

/// A number that a slot has already says that the change joined that slot's patch.
fn see_create(cover: &mut Cover, table: &Table, change: &Change, answer: &Answer) {
    see_change(cover, table, change);
    if change.named.iter().any(|&number| number < table.first) {
        see_old_names(cover, table, change);
        see_beside_old(cover, table, change.named);
        when(cover, answer.hold != 1, "create: names a number below first, and is soft");
    }
    if answer.hold == 1 {
        see_hard(cover, table, change.block);
    } else {
        let room = answer.hold - 2;
        cover.add("create: soft in room", room);
        let higher = table.rooms_taken().iter().any(|&taken| taken > room);
        when(cover, higher, "create: soft, a lower room taken again");
        let beside = !table.hard_waiting(change.block).is_empty();
        when(cover, beside, "create: soft beside a waiting hard one, not joined");
    }
    match table.slot_of(answer.number) {
        Some(slot) => {
            see_joined(cover, table, change, slot);
            see_gained(cover, table, change, slot);
        }
        None => {
            see_added(cover, table, answer.number);
            see_befores(cover, table, change);
        }
    }
}

fn see_change(cover: &mut Cover, table: &Table, change: &Change) {
    let length = change.data.len();
    when(cover, length == 1, "create: length 1");
    when(cover, length == LONGEST_DATA, "create: length 64");
    let end = change.offset as usize + length;
    when(cover, end == BLOCK_BYTES, "create: ends with the block");
    let last = change.block == LAST_BLOCK && end == BLOCK_BYTES;
    when(cover, last, "create: in the last 64 bytes of the image");
    cover.add("create: so many numbers named", change.named.len() as u32);
    let committed = change.named.iter().any(|&number| committed_since(table, number));
    when(cover, committed, "create: committed name dropped");
    let twice = (1..change.named.len()).any(|i| change.named[..i].contains(&change.named[i]));
    when(cover, twice, "create: number named twice");
}

/// Issued at this opening, and in no slot.
fn committed_since(table: &Table, number: u32) -> bool {
    table.first <= number && number < table.next && table.slot_of(number).is_none()
}

/// A change that names numbers from before the opening: which, and that they are nobody's.
fn see_old_names(cover: &mut Cover, table: &Table, change: &Change) {
    let (old, since): (Vec<u32>, Vec<u32>) = change.named.iter().partition(|&&number| number < table.first);
    cover.add("create: names a number below first", 0);
    when(cover, old.contains(&1), "create: names 1, with first above 1");
    when(cover, old.contains(&(table.first - 1)), "create: names first - 1");
    let twice = (1..old.len()).any(|i| old[..i].contains(&old[i]));
    when(cover, twice, "create: names a number below first twice");
    let none_since = table.next == table.first;
    when(cover, none_since, "create: names a number below first, and nothing was issued since");
    let befores = Right.befores(table, change);
    let follows_nothing = since.is_empty() && befores.is_empty();
    when(cover, follows_nothing, "create: names only numbers below first, and has no befores");
    let slot_0 = table.slots[0].used() && !befores.contains(&0);
    when(cover, slot_0, "create: names one below first, slot 0 in use and no before");
    let alike = old.iter().any(|&number| alike_in_use(table, number));
    when(cover, alike, "create: names one below first, alike in its low digits with one in use");
    let remains = old.iter().any(|&number| in_a_free_slot(table, number));
    when(cover, remains, "create: names one below first that stands in a free slot");
}

/// What else such a change names.
fn see_beside_old(cover: &mut Cover, table: &Table, named: &[u32]) {
    let names = |named: &[u32], test: fn(&Slot) -> bool| {
        named.iter().filter_map(|&number| table.slot_of(number)).any(|i| test(&table.slots[i]))
    };
    when(cover, names(named, Slot::waiting), "create: names one below first and one that waits");
    when(cover, names(named, Slot::in_flight), "create: names one below first and one in flight");
    let committed = named.iter().any(|&number| committed_since(table, number));
    when(cover, committed, "create: names one below first and one committed since");
    let old = named.iter().position(|&number| number < table.first).unwrap_or(0);
    when(cover, names(&named[old..], Slot::waiting), "create: names one that waits after one below first");
}

/// Where a lookup by a number's low byte alone would take it for that of a patch.
fn alike_in_use(table: &Table, number: u32) -> bool {
    table.patches().any(|(_, patch)| patch.number % 256 == number % 256)
}

fn in_a_free_slot(table: &Table, number: u32) -> bool {
    table.slots.iter().any(|slot| !slot.used() && slot.number == number)
}

fn see_asked(cover: &mut Cover, table: &Table, number: u32, state: u32) {
    let far = table.next - number > 65_536;
    if number >= table.first {
        cover.add("ask: state", state);
        when(cover, far && state == 3, "ask: committed more than 65,536 numbers ago");
        return;
    }
    cover.add("ask: below first", 0);
    when(cover, number == 1, "ask: 1, with first above 1");
    when(cover, number == table.first - 1, "ask: first - 1");
    when(cover, table.next == table.first, "ask: below first, and nothing was issued since");
    when(cover, table.slots[0].used(), "ask: below first, slot 0 in use");
    when(cover, far, "ask: below first, more than 65,536 below next");
    let alike = alike_in_use(table, number);
    when(cover, alike, "ask: below first, alike in its low digits with one in use");
    when(cover, in_a_free_slot(table, number), "ask: below first, and stands in a free slot");
}

fn see_hard(cover: &mut Cover, table: &Table, block: u32) {
    let (waiting, flying) = (table.waiting(block), table.in_flight(block));
    let soft = waiting.iter().filter(|&&i| table.slots[i].room().is_some()).count();
    cover.add("create: hard", 0);
    when(cover, soft >= 1, "create: hard, some soft turned hard");
    when(cover, soft >= 2, "create: hard, two or more soft turned hard");
    let followed = table.patches().any(|(_, p)| p.block != block && !p.befores.is_disjoint(&flying));
    when(cover, followed, "create: hard, only one in flight is followed from elsewhere");
    let elsewhere = table.rooms_taken().len() > soft;
    when(cover, elsewhere, "create: hard, a soft one of another block stays soft");
    let only_flying = waiting.is_empty() && !flying.is_empty();
    when(cover, only_flying, "create: hard, only one in flight on its block");
}

/// A patch of its own.
fn see_added(cover: &mut Cover, table: &Table, number: u32) {
    let slot = table.slots.iter().position(|slot| !slot.used()).unwrap_or(0);
    cover.add("create: in slot", slot as u32);
    let higher = table.patches().any(|(i, _)| i > slot);
    when(cover, higher, "create: a lower slot taken again");
    when(cover, table.slots[slot] != Slot::free(), "create: into a slot with remains");
    when(cover, number == LAST_NUMBER, "create: number 1,000,000,000");
}

fn see_joined(cover: &mut Cover, table: &Table, change: &Change, slot: usize) {
    let (patch, waiting) = (&table.slots[slot], table.waiting(change.block));
    let other_soft = waiting.iter().any(|&i| i != slot && table.slots[i].room().is_some());
    cover.add("create: joined", 0);
    when(cover, patch.room().is_some(), "create: joined a patch that was soft");
    when(cover, other_soft, "create: joined, another soft one turned hard");
    when(cover, other_soft && patch.hard(), "create: joined a hard one, a soft one turned hard");
    when(cover, waiting.len() >= 2, "create: joined, two or more wait");
    let higher = waiting.first() != Some(&slot);
    when(cover, higher, "create: joined, the lowest number not in the lowest slot");
    let flying = !table.in_flight(change.block).is_empty();
    when(cover, flying, "create: joined, one of the block in flight");
    when(cover, table.patches().count() == SLOTS, "create: joined, all slots in use");
    when(cover, table.next > LAST_NUMBER, "create: joined, no number left");
    let end = u64::from(change.offset) + change.data.len() as u64;
    let outside = change.offset < patch.offset || end > patch.end();
    when(cover, outside, "create: joined outside the patch's range");
}

/// What a joined change names, and what becomes of it.
fn see_gained(cover: &mut Cover, table: &Table, change: &Change, slot: usize) {
    let old = change.named.iter().any(|&number| number < table.first);
    when(cover, old, "create: joined, a number below first named");
    let gained = !Right.gained(table, change).is_subset(&table.slots[slot].befores);
    when(cover, old && gained, "create: joined, one below first named and a before added");
    for i in change.named.iter().filter_map(|&number| table.slot_of(number)) {
        let named = &table.slots[i];
        let there = table.slots[slot].befores.contains(&i);
        let name = match (named.block == change.block, named.waiting()) {
            (false, _) if there => "create: joined, a before named that is one already",
            (false, true) => "create: joined, a before that waits added",
            (false, false) => "create: joined, a before in flight added",
            (true, true) if i == slot => "create: joined, its own patch named",
            (true, true) => "create: joined, another of its block named that waits",
            (true, false) => "create: joined, one of its block named that is in flight",
        };
        cover.add(name, 0);
    }
}

fn see_befores(cover: &mut Cover, table: &Table, change: &Change) {
    let (start, end) = (u64::from(change.offset), u64::from(change.offset) + change.data.len() as u64);
    for (_, patch) in table.patches() {
        let shares = u64::from(patch.offset) < end && start < patch.end();
        let here = patch.block == change.block;
        let named = change.named.contains(&patch.number);
        when(cover, here && shares, "create: overlap is a before");
        when(cover, here && shares && patch.in_flight(), "create: overlap with one in flight is a before");
        when(cover, !here && shares && !named, "create: same range on another block, no before");
        when(cover, named, "create: named is a before");
        when(cover, named && patch.in_flight(), "create: named and in flight is a before");
        when(cover, named && here && shares, "create: named and overlapping");
        if here && !shares && !named {
            let touches = u64::from(patch.offset) == end || start == patch.end();
            when(cover, touches && !patch.hard(), "create: only touching a soft one, no before");
            see_apart(cover, patch);
        }
    }
}

/// A patch of the block that a new one neither names nor overlaps.
fn see_apart(cover: &mut Cover, patch: &Slot) {
    match patch.state {
        State::WaitingHard => cover.add("create: a hard one that waits is a before without overlap", 0),
        State::InFlightHard => cover.add("create: a hard one in flight is a before without overlap", 0),
        State::InFlightSoft => cover.add("create: a soft one in flight is no before without overlap", 0),
        State::Free | State::WaitingSoft { .. } => {}
    }
}

fn see_write(cover: &mut Cover, table: &Table, block: u32, sent: &Slots) {
    let waiting = table.waiting(block);
    let left: Vec<&Slot> = waiting.difference(sent).map(|&i| &table.slots[i]).collect();
    let share = |a: &Slot, b: &Slot| u64::from(a.offset) < b.end() && u64::from(b.offset) < a.end();
    let overlap = (1..left.len()).any(|i| left[..i].iter().any(|p| share(p, left[i])));
    let hard = sent.iter().filter(|&&i| table.slots[i].state == State::WaitingHard).count();
    let with_before = sent.iter().any(|&i| !table.slots[i].befores.is_empty());
    when(cover, left.is_empty(), "write: all went");
    when(cover, hard > 0 && hard < sent.len(), "write: hard and soft went together");
    when(cover, with_before, "write: one went with its before");
    when(cover, !left.is_empty(), "write: soft left behind");
    when(cover, left.len() >= 2, "write: two or more left behind");
    when(cover, overlap, "write: two left behind overlap");
    let (rounds, _) = rounds_of_striking(table, block);
    when(cover, rounds >= 2, "write: striking takes two rounds or more");
    when(cover, rounds >= 3, "write: striking takes three rounds or more");
    when(cover, rounds >= 9, "write: striking takes nine rounds or more");
    when(cover, left.len() == 16, "write: sixteen left behind");
    let wide =
        |a: &Slot, b: &Slot| (a.number < b.number) != (a.number % 65_536 < b.number % 65_536) && share(a, b);
    let digits = (1..left.len()).any(|i| left[..i].iter().any(|p| wide(p, left[i])));
    when(cover, digits, "write: two left behind overlap, their low 16 binary digits in the other order");
    when(cover, waiting.len() <= FEW, "write: every subset tried");
    when(cover, waiting.len() > FEW, "write: befores followed");
    let circle = |&i: &usize| Right.all_that_stands_before(table, i).contains(&i);
    let later =
        |&&i: &&usize| table.slots[i].befores.iter().any(|&b| table.slots[b].number > table.slots[i].number);
    let in_circle = sent.iter().filter(later).any(circle);
    when(cover, in_circle, "write: befores in a circle went");
}

/// How many rounds strike something, and in which a hard patch is first struck (0: in none).
fn rounds_of_striking(table: &Table, block: u32) -> (usize, usize) {
    let mut left = table.waiting(block);
    let (mut rounds, mut hard_struck) = (0, 0);
    loop {
        let held = |&i: &usize| !table.slots[i].befores.is_subset(&left);
        let struck: Slots = left.iter().copied().filter(held).collect();
        if struck.is_empty() {
            return (rounds, hard_struck);
        }
        rounds += 1;
        if hard_struck == 0 && struck.iter().any(|&i| table.slots[i].state == State::WaitingHard) {
            hard_struck = rounds;
        }
        left.retain(|i| !struck.contains(i));
    }
}

fn see_complete(cover: &mut Cover, table: &Table, block: u32, lent: &[u8]) {
    let flying = table.in_flight(block);
    let follows = table.patches().any(|(_, p)| p.block != block && !p.befores.is_disjoint(&flying));
    when(cover, follows, "complete: a before elsewhere removed");
    when(cover, flying.len() >= 2, "complete: two or more commit");
    when(cover, !table.waiting(block).is_empty(), "complete: others of the block wait on");
    let remains = |slot: &&Slot| !slot.used() && !slot.befores.is_disjoint(&flying);
    when(cover, table.slots.iter().any(|slot| remains(&slot)), "complete: remains in free slots kept");
    let room_field = |i: usize| lent[8 + i * SLOT_BYTES + 4] != 0;
    let unread = (0..SLOTS).any(|i| table.slots[i].room().is_none() && room_field(i));
    when(cover, unread, "a room field that is not read");
}

fn see_count(cover: &mut Cover, table: &Table, block: u32, count: u32) {
    when(cover, count == 0, "count: 0");
    when(cover, count > 0, "count: more than 0");
    let flying = !table.in_flight(block).is_empty();
    when(cover, count > 0 && flying, "count: more than 0, some in flight");
    // Numbers alike in their low digits are where a quick test that all differ has to look twice.
    let digits: BTreeSet<u32> = table.patches().map(|(_, patch)| patch.number % 1_024).collect();
    let alike = digits.len() < table.patches().count();
    when(cover, alike, "count: numbers in use a multiple of 1,024 apart");
}

fn see_refused(cover: &mut Cover, table: &Table, step: &Step, refusal: u32) {
    let number;
    let asked = match &step.call {
        Call::Create { block, offset, data, named } => {
            Asked { block: *block, offset: *offset, length: data.len(), numbers: named, ..Asked::default() }
        }
        Call::Write { block }
        | Call::Complete { block }
        | Call::Count { block }
        | Call::CompleteWrite { x: block, .. } => Asked { block: *block, ..Asked::default() },
        Call::Ask { number: n } | Call::Open { first: n } => {
            number = [*n];
            Asked { numbers: &number, ..Asked::default() }
        }
    };
    let tests = Right.tests(step.kind());
    if tests.iter().any(|&test| test.number() > refusal && Right.holds(test, table, &asked)) {
        cover.add(refused_early(step.kind()), refusal);
    }
    let Some(&refusal) = tests.iter().find(|test| test.number() == refusal) else { return };
    let sum = u64::from(asked.offset) + asked.length as u64;
    match refusal {
        Refusal::NotSound => see_unsound(cover, table),
        Refusal::DataLength => {
            when(cover, asked.length == 65, "create: refused 4, length 65");
            when(cover, asked.length % 256 == 1, "create: refused 4, the length's low byte is 1");
        }
        Refusal::PastTheEnd => {
            when(cover, asked.offset == u32::MAX, "create: refused 5, offset 4,294,967,295");
            when(cover, sum == 257, "create: refused 5, offset + length is 257");
            when(cover, sum > u64::from(u32::MAX), "create: refused 5, the sum wraps in 32 bits");
        }
        Refusal::ManyNames => {
            when(cover, asked.numbers.len() == 9, "create: refused 6, nine named");
            when(cover, asked.numbers.len() == 264, "create: refused 6, 264 named");
            let old = asked.numbers.iter().any(|&number| 1 <= number && number < table.first);
            when(cover, old, "create: refused 6, one below first among them");
        }
        Refusal::NeverIssued => see_never_issued(cover, table, step.kind(), asked.numbers),
        Refusal::NoneMayGo => see_held(cover, table, asked.block),
        Refusal::NoNumberLeft => see_no_place(cover, table, asked.block, NO_NUMBER),
        Refusal::NoFreeSlot => see_no_place(cover, table, asked.block, NO_SLOT),
        Refusal::BufferSize | Refusal::BlockAbove63 => {}
        Refusal::NoFreeRoom | Refusal::OneInFlight | Refusal::NoneWaits | Refusal::NoneInFlight => {}
        Refusal::FirstNumber => {}
    }
}

const CREATE_NEVER_ISSUED: [&str; 3] = [
    "create: refused 7, its own coming number",
    "create: refused 7, 0 where first is above 1",
    "create: refused 7, first itself, nothing issued yet",
];
const ASK_NEVER_ISSUED: [&str; 3] = [
    "ask: refused 7, next",
    "ask: refused 7, 0 where first is above 1",
    "ask: refused 7, first itself, nothing issued yet",
];

fn see_never_issued(cover: &mut Cover, table: &Table, kind: Kind, numbers: &[u32]) {
    let [next, zero, first] = if kind == Kind::Create { CREATE_NEVER_ISSUED } else { ASK_NEVER_ISSUED };
    let coming = numbers.contains(&table.next);
    when(cover, coming, next);
    when(cover, numbers.contains(&0) && table.first > 1, zero);
    when(cover, coming && table.next == table.first && table.first > 1, first);
    let old = numbers.iter().any(|&number| 1 <= number && number < table.first);
    when(cover, old && kind == Kind::Create, "create: refused 7, one below first named too");
}

const NO_NUMBER: [&str; 3] = [
    "create: refused 8, would be soft and some of the block wait",
    "create: refused 8, none of the block waits",
    "create: refused 8, only one in flight on the block",
];
const NO_SLOT: [&str; 3] = [
    "create: refused 9, would be soft and some of the block wait",
    "create: refused 9, none of the block waits",
    "create: refused 9, only one in flight on the block",
];

/// Why a creation without number or slot did not join: its name for each reason.
fn see_no_place(cover: &mut Cover, table: &Table, block: u32, names: [&'static str; 3]) {
    let none_waits = table.waiting(block).is_empty();
    when(cover, !none_waits && !Right.would_be_hard(table, block), names[0]);
    when(cover, none_waits, names[1]);
    when(cover, none_waits && !table.in_flight(block).is_empty(), names[2]);
}

fn see_unsound(cover: &mut Cover, table: &Table) {
    let broken: Vec<usize> = (0..CLAUSES.len()).filter(|&i| !Right.clause_holds(CLAUSES[i], table)).collect();
    if let [alone] = broken[..] {
        cover.add("unsound by one clause alone", alone as u32);
    }
}

fn see_held(cover: &mut Cover, table: &Table, block: u32) {
    let hard = table.hard_waiting(block);
    when(cover, !hard.is_empty(), "write: refused 13, a hard one held");
    when(cover, hard.is_empty(), "write: refused 13, only soft wait");
    let waiting = table.waiting(block);
    let before = |&i: &usize| table.slots[i].befores.iter().any(|&b| table.slots[b].in_flight());
    when(cover, waiting.iter().any(before), "write: refused 13, held by one in flight");
    let struck = rounds_of_striking(table, block).1;
    when(cover, struck >= 2, "write: refused 13, hard one struck after the first round");
    when(cover, struck >= 9, "write: refused 13, hard one struck after the eighth round");
}
