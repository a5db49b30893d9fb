//! Shows that the comparison can fail: models with one rule wrong each, standing in for the
//! library. Each must be caught.

use crate::cases::{fixed, paper, sweep};
use crate::judge::cover::Cover;
use crate::judge::drive::Driver;
use crate::judge::run::Pair;
use crate::judge::shrink;
use crate::library::calls::Library;
use crate::library::mock::Mock;
use crate::model::rules::{Model, Right};
use crate::model::table::*;
use crate::orders::steps::Answer;
use std::collections::BTreeSet;

/// Declares a wrong model: a name, and the rule it has instead.
macro_rules! wrong {
    ($name:ident: $($rule:tt)*) => {
        struct $name;
        impl Model for $name { $($rule)* }
    };
}

wrong!(OffsetOnly: fn past_the_end(&self, offset: u32, _: usize) -> bool { offset > 255 });
wrong!(OffsetOnlyThroughout:
    fn past_the_end(&self, offset: u32, _: usize) -> bool { offset > 255 }
    fn tests_clause(&self, clause: Clause) -> bool { clause != Clause::Ends }
);
wrong!(SumWraps: fn past_the_end(&self, offset: u32, length: usize) -> bool { offset.wrapping_add(length as u32) > 256 });
wrong!(EndOffByOne: fn past_the_end(&self, offset: u32, length: usize) -> bool { u64::from(offset) + length as u64 > 255 });
wrong!(InFlightIsCommitted: fn must_follow(&self, t: &Table, i: usize) -> Slots {
    t.slots[i].befores.iter().copied().filter(|&b| t.slots[b].block == t.slots[i].block || t.slots[b].waiting()).collect()
});
wrong!(LowestFirst: fn order_of_taking_back(&self, t: &Table, left: &Slots) -> Vec<usize> {
    Right.order_of_taking_back(t, left).into_iter().rev().collect()
});
wrong!(SlotOrder: fn order_of_taking_back(&self, _: &Table, left: &Slots) -> Vec<usize> { left.iter().copied().rev().collect() });
wrong!(TakesNothingBack: fn take_back(&self, _: &Slot, _: &[u8], _: &mut [u8]) {});
wrong!(HardLeftBehind: fn has_all_hard(&self, _: &Table, _: u32, _: &Slots) -> bool { true });
wrong!(NoSlotIsUnknown: fn never_issued(&self, t: &Table, number: u32) -> bool {
    Right.never_issued(t, number) || (number >= t.first && t.slot_of(number).is_none())
});
wrong!(NextIsIssued: fn never_issued(&self, t: &Table, number: u32) -> bool { number == 0 || number > t.next });
wrong!(OnePass: fn largest_that_may_go(&self, t: &Table, block: u32) -> Slots {
    let waiting = t.waiting(block);
    let kept: Slots = waiting.iter().copied().filter(|&i| t.slots[i].befores.is_subset(&waiting)).collect();
    if self.has_all_hard(t, block, &kept) { kept } else { Slots::new() }
});
wrong!(SmallestSet: fn largest_that_may_go(&self, t: &Table, block: u32) -> Slots {
    let largest = Right.largest_that_may_go(t, block);
    let hard = t.hard_waiting(block);
    if !hard.is_empty() && self.may_go(t, block, &hard) { hard } else { largest }
});
wrong!(TouchingOverlaps: fn share_a_byte(&self, p: &Slot, start: u64, end: u64) -> bool { u64::from(p.offset) <= end && start <= p.end() });
wrong!(OverlapOnlyWaiting: fn overlaps(&self, p: &Slot, change: &Change) -> bool { p.waiting() && Right.overlaps(p, change) });
wrong!(OverlapOnEveryBlock: fn overlaps(&self, p: &Slot, c: &Change) -> bool { Right.overlaps(&Slot { block: c.block, ..p.clone() }, c) });
wrong!(NamesOnlyWaiting: fn named(&self, t: &Table, change: &Change) -> Slots {
    Right.named(t, change).into_iter().filter(|&i| t.slots[i].waiting()).collect()
});
wrong!(SlotsFromOne: fn lowest_free_slot(&self, t: &Table) -> Option<usize> { (1..SLOTS).find(|&i| !t.slots[i].used()) });
wrong!(HighestSlot: fn lowest_free_slot(&self, t: &Table) -> Option<usize> { (0..SLOTS).rev().find(|&i| !t.slots[i].used()) });
wrong!(FifteenRooms: fn lowest_free_room(&self, t: &Table) -> Option<u32> { (0..t.setting.rooms() - 1).find(|r| !t.rooms_taken().contains(r)) });
wrong!(SoftStaysSoft: fn turn_waiting_soft_hard(&self, _: &mut Table, _: u32) {});
wrong!(TurnsEveryBlock: fn turn_waiting_soft_hard(&self, t: &mut Table, _: u32) { (0..64).for_each(|b| Right.turn_waiting_soft_hard(t, b)) });
wrong!(AlwaysHard: fn would_be_hard(&self, _: &Table, _: u32) -> bool { true });
wrong!(InFlightHoldsSoft: fn would_be_hard(&self, t: &Table, block: u32) -> bool {
    !t.patches().any(|(_, p)| p.block != block && p.befores.iter().any(|&b| t.slots[b].block == block))
});
wrong!(OnlyWaitingHoldsSoft: fn would_be_hard(&self, t: &Table, block: u32) -> bool {
    !t.patches().any(|(_, p)| p.block != block && p.waiting() && !p.befores.is_disjoint(&t.waiting(block)))
});
wrong!(RoomWiped: fn keep_old_bytes(&self, undo: &mut [u8], room: u32, old: &[u8]) {
    undo[64 * room as usize..][..64].fill(0);
    Right.keep_old_bytes(undo, room, old);
});
wrong!(RoomForgotten: fn keep_old_bytes(&self, _: &mut [u8], _: u32, _: &[u8]) {});
wrong!(SentLosesBefores: fn send(&self, p: &mut Slot) { Right.send(p); p.befores.clear(); });
wrong!(BeforesKept: fn forget_committed(&self, _: &mut Slot, _: &Slots) {});
wrong!(CleansFreeSlots: fn complete(&self, t: &mut Table, block: u32) -> Result<(), Refusal> {
    Right.complete(t, block)?;
    t.slots.iter_mut().filter(|slot| !slot.used()).for_each(|slot| *slot = Slot::free());
    Ok(())
});
wrong!(CountsInFlight: fn counted(&self, t: &Table, block: u32) -> Slots { t.waiting(block).union(&t.in_flight(block)).copied().collect() });
wrong!(AskSaysCommitted: fn ask(&self, t: &Table, number: u32) -> Result<Standing, Refusal> {
    Right.ask(t, number).map(|s| if s == Standing::InFlight { Standing::Committed } else { s })
});
/// Two tests in the other order.
struct Swapped(Kind, Refusal, Refusal);

impl Model for Swapped {
    fn tests(&self, kind: Kind) -> Vec<Refusal> {
        let swap = |test| match test {
            test if test == self.1 => self.2,
            test if test == self.2 => self.1,
            test => test,
        };
        if kind == self.0 { Right.tests(kind).into_iter().map(swap).collect() } else { Right.tests(kind) }
    }
}

wrong!(AlwaysNumberOne: fn create(&self, t: &mut Table, i: &mut [u8], u: &mut [u8], c: &Change) -> Result<(u32, State), Refusal> {
    Right.create(t, i, u, c).map(|(_, state)| (1, state))
});
wrong!(TouchesNothing: fn create(&self, t: &mut Table, i: &mut [u8], u: &mut [u8], c: &Change) -> Result<(u32, State), Refusal> {
    Right.create(&mut t.clone(), &mut i.to_vec(), &mut u.to_vec(), c)
});
wrong!(OpenKeepsFirst: fn open(&self, first: u32) -> (Result<(), Refusal>, Table) { (Right.open(first).0, Table::empty(self.setting(), first)) });
wrong!(RefusesEverything: fn judge(&self, kind: Kind, t: &Table, asked: &Asked) -> Result<(), Refusal> {
    Right.judge(kind, t, asked)?;
    self.tests(kind).pop().map_or(Ok(()), Err)
});
wrong!(LaterWritesOnlySaid: fn write(&self, t: &mut Table, i: &[u8], u: &[u8], h: &mut [u8], b: u32) -> Result<Slots, Refusal> {
    let first = t.patches().filter(|(_, p)| p.waiting()).count() == (t.next - t.first.min(t.next)) as usize;
    if first { Right.write(t, i, u, h, b) } else { Right.write(&mut t.clone(), i, u, &mut h.to_vec(), b) }
});
wrong!(InventedCount: fn count(&self, t: &Table, block: u32) -> Result<u32, Refusal> { Right.count(t, block).map(|_| block % 3) });
wrong!(OnlyLastRoomShared: fn clause_holds(&self, clause: Clause, t: &Table) -> bool {
    let last = t.rooms_taken().into_iter().filter(|&room| room == 15).count() < 2;
    if clause == Clause::RoomsDiffer { last } else { Right.clause_holds(clause, t) }
});
wrong!(HighRoomsPass: fn clause_holds(&self, clause: Clause, t: &Table) -> bool {
    let low = t.rooms_taken().into_iter().all(|room| room < 16 || (17..64).contains(&room));
    if clause == Clause::Rooms { low } else { Right.clause_holds(clause, t) }
});
wrong!(RemainsAreUsed: fn clause_holds(&self, clause: Clause, t: &Table) -> bool {
    let used = |b: &usize| t.slots[*b] != Slot::free();
    if clause == Clause::BeforesUsed { t.patches().all(|(_, p)| p.befores.iter().all(used)) } else { Right.clause_holds(clause, t) }
});
wrong!(NeighboursDiffer: fn clause_holds(&self, clause: Clause, t: &Table) -> bool {
    let differ = t.slots.windows(2).all(|s| !s[0].used() || !s[1].used() || s[0].number != s[1].number);
    if clause == Clause::NumbersDiffer { differ } else { Right.clause_holds(clause, t) }
});
wrong!(LastSlotUnjudged: fn sound(&self, t: &Table) -> bool {
    let mut shown = t.clone();
    shown.slots[63] = Slot { befores: Slots::new(), ..Slot::free() };
    shown.slots.iter_mut().for_each(|slot| { slot.befores.remove(&63); });
    Right.sound(&shown)
});
wrong!(RemainsJudged: fn sound(&self, t: &Table) -> bool {
    Right.sound(t) && t.slots.iter().filter(|slot| !slot.used()).all(|slot| slot.block <= LAST_BLOCK)
});
wrong!(FirstBelowLast: fn sound(&self, t: &Table) -> bool { Right.sound(t) && t.first < LAST_NUMBER });
wrong!(NextAtMostLast: fn sound(&self, t: &Table) -> bool { Right.sound(t) && t.next <= LAST_NUMBER });
wrong!(CommittedLongAgoUnknown: fn never_issued(&self, t: &Table, number: u32) -> bool {
    Right.never_issued(t, number) || (number >= t.first && t.slot_of(number).is_none() && t.next - number > 65_536)
});
wrong!(NamesInEightBits: fn too_many_names(&self, names: usize) -> bool { names % 256 > MOST_NAMED });
wrong!(LengthInEightBits: fn holds(&self, refusal: Refusal, t: &Table, asked: &Asked) -> bool {
    let length = asked.length % 256;
    if refusal == Refusal::DataLength { length == 0 || length > LONGEST_DATA } else { Right.holds(refusal, t, asked) }
});
wrong!(OrderBySixteenBits: fn order_of_taking_back(&self, t: &Table, left: &Slots) -> Vec<usize> {
    let mut order: Vec<usize> = left.iter().copied().collect();
    order.sort_by_key(|&slot| std::cmp::Reverse(t.slots[slot].number % 65_536));
    order
});
wrong!(FifteenTakenBack: fn order_of_taking_back(&self, t: &Table, left: &Slots) -> Vec<usize> {
    Right.order_of_taking_back(t, left).into_iter().take(15).collect()
});
wrong!(HardSeenInEightRounds: fn largest_that_may_go(&self, t: &Table, block: u32) -> Slots {
    let mut left = t.waiting(block);
    for round in 1.. {
        let struck: Slots = left.iter().copied().filter(|&i| !t.slots[i].befores.is_subset(&left)).collect();
        if struck.is_empty() { break }
        if round <= 8 && !struck.is_disjoint(&t.hard_waiting(block)) { return Slots::new() }
        left.retain(|i| !struck.contains(i));
    }
    left
});
wrong!(CirclesStay: fn largest_that_may_go(&self, t: &Table, block: u32) -> Slots {
    let mut largest = Right.largest_that_may_go(t, block);
    largest.retain(|&i| !Right.all_that_stands_before(t, i).contains(&i));
    largest
});
wrong!(TurnsOnlyTheLowest: fn turn_waiting_soft_hard(&self, t: &mut Table, block: u32) {
    if let Some(slot) = t.waiting(block).into_iter().find(|&i| t.slots[i].room().is_some()) { t.slots[slot].state = State::WaitingHard }
});
wrong!(ForgetsTheLowestOnly: fn forget_committed(&self, p: &mut Slot, committed: &Slots) {
    committed.first().map(|lowest| p.befores.remove(lowest));
});

// ---- Joining ----

wrong!(JoinsTheHighest: fn joined(&self, t: &Table, block: u32) -> Option<usize> {
    Right.joined(t, block).and_then(|_| t.waiting(block).into_iter().max_by_key(|&i| t.slots[i].number))
});
wrong!(JoinsTheLowestSlot: fn joined(&self, t: &Table, block: u32) -> Option<usize> {
    Right.joined(t, block).and_then(|_| t.waiting(block).first().copied())
});
wrong!(JoinsInFlight: fn joined(&self, t: &Table, block: u32) -> Option<usize> {
    let flying = t.in_flight(block).into_iter().filter(|_| self.would_be_hard(t, block)).min_by_key(|&i| t.slots[i].number);
    Right.joined(t, block).or(flying)
});
wrong!(SoftJoins: fn joined(&self, t: &Table, block: u32) -> Option<usize> {
    t.waiting(block).into_iter().min_by_key(|&i| t.slots[i].number)
});
wrong!(JoinsOnlyTheHard: fn joined(&self, t: &Table, block: u32) -> Option<usize> {
    let hard = t.hard_waiting(block);
    Right.joined(t, block).and_then(|_| hard.into_iter().min_by_key(|&i| t.slots[i].number))
});
wrong!(NeverJoins: fn joined(&self, _: &Table, _: u32) -> Option<usize> { None });
wrong!(RangeGrows: fn join(&self, t: &mut Table, slot: usize, c: &Change) {
    Right.join(t, slot, c);
    let patch = &mut t.slots[slot];
    let (start, end) = (patch.offset.min(c.offset), patch.end().max(u64::from(c.offset) + c.data.len() as u64));
    (patch.offset, patch.length) = (start, (end as u32 - start).min(LONGEST_DATA as u32));
});
wrong!(NextGrows: fn join(&self, t: &mut Table, slot: usize, c: &Change) {
    Right.join(t, slot, c);
    t.next += u32::from(t.next <= LAST_NUMBER);
});
wrong!(OnlyTheJoinedTurns: fn join(&self, t: &mut Table, slot: usize, c: &Change) {
    let gained = self.gained(t, c);
    t.slots[slot].state = State::WaitingHard;
    t.slots[slot].befores.extend(gained);
});
wrong!(GainsItsOwnBlock: fn join(&self, t: &mut Table, slot: usize, c: &Change) {
    let named = self.named(t, c);
    Right.join(t, slot, c);
    t.slots[slot].befores.extend(named.into_iter().filter(|&i| i != slot));
});
wrong!(GainsInFlightHere: fn gained(&self, t: &Table, c: &Change) -> Slots {
    Right.named(t, c).into_iter().filter(|&i| t.slots[i].block != c.block || t.slots[i].in_flight()).collect()
});
wrong!(GainsHardHere: fn gained(&self, t: &Table, c: &Change) -> Slots {
    let flying = t.in_flight(c.block).into_iter().filter(|&i| t.slots[i].hard());
    Right.gained(t, c).into_iter().chain(flying).collect()
});
wrong!(GainsNothing: fn gained(&self, _: &Table, _: &Change) -> Slots { Slots::new() });
wrong!(GainsOnlyWaiting: fn gained(&self, t: &Table, c: &Change) -> Slots {
    Right.gained(t, c).into_iter().filter(|&i| t.slots[i].waiting()).collect()
});
wrong!(GainsOneOnly: fn gained(&self, t: &Table, c: &Change) -> Slots { Right.gained(t, c).into_iter().take(1).collect() });
wrong!(GainedReplace: fn join(&self, t: &mut Table, slot: usize, c: &Change) {
    let gained = self.gained(t, c);
    Right.join(t, slot, c);
    t.slots[slot].befores = gained;
});
wrong!(FollowsOnlyOverlapped: fn hard_ones(&self, _: &Table, _: u32) -> Slots { Slots::new() });
wrong!(FollowsOnlyWaitingHard: fn hard_ones(&self, t: &Table, block: u32) -> Slots { t.hard_waiting(block) });
wrong!(FollowsOnlyHardInFlight: fn hard_ones(&self, t: &Table, block: u32) -> Slots {
    t.in_flight(block).into_iter().filter(|&i| t.slots[i].hard()).collect()
});
wrong!(FollowsAllOfItsBlock: fn hard_ones(&self, t: &Table, block: u32) -> Slots {
    t.waiting(block).union(&t.in_flight(block)).copied().collect()
});
wrong!(JoinWritesUndo: fn create(&self, t: &mut Table, i: &mut [u8], u: &mut [u8], c: &Change) -> Result<(u32, State), Refusal> {
    let (joined, old) = (Right.joined(t, c.block), i.to_vec());
    let answer = Right.create(t, i, u, c)?;
    if let (Some(_), Some(room)) = (joined, self.lowest_free_room(t)) {
        self.keep_old_bytes(u, room, &old[256 * c.block as usize + c.offset as usize..][..c.data.len()]);
    }
    Ok(answer)
});
wrong!(JoinedDataLost: fn create(&self, t: &mut Table, i: &mut [u8], u: &mut [u8], c: &Change) -> Result<(u32, State), Refusal> {
    let joined = Right.joined(t, c.block).is_some();
    let mut kept = i.to_vec();
    Right.create(t, if joined { &mut kept } else { i }, u, c)
});
wrong!(JoinAnswersNext: fn create(&self, t: &mut Table, i: &mut [u8], u: &mut [u8], c: &Change) -> Result<(u32, State), Refusal> {
    let joined = Right.joined(t, c.block).is_some();
    Right.create(t, i, u, c).map(|(number, state)| (if joined { t.next } else { number }, state))
});

/// Gives a refusal also to a creation that joins: the table alone is asked.
struct RefusesJoins(Refusal);

impl Model for RefusesJoins {
    fn holds(&self, refusal: Refusal, table: &Table, asked: &Asked) -> bool {
        let full = match refusal {
            _ if refusal != self.0 => false,
            Refusal::NoNumberLeft => table.next > LAST_NUMBER,
            _ => table.patches().count() == SLOTS,
        };
        full || Right.holds(refusal, table, asked)
    }
}

/// Takes every creation on a block with a waiting patch for one that joins, as far as a refusal goes. A soft one has then no number or
/// slot to take, and answers 10.
struct SpareOfSoft(Refusal);

impl Model for SpareOfSoft {
    fn holds(&self, refusal: Refusal, table: &Table, asked: &Asked) -> bool {
        let spared = refusal == self.0 && !table.waiting(asked.block).is_empty();
        (!spared && Right.holds(refusal, table, asked))
            || (refusal == Refusal::NoFreeRoom && Right.holds(self.0, table, asked))
    }
}

// ---- Numbers from before the opening ----

/// From before the opening, by the rule: 0 is none of them.
fn old(table: &Table, number: u32) -> bool {
    1 <= number && number < table.first
}

wrong!(ZeroHasCommitted: fn never_issued(&self, t: &Table, number: u32) -> bool { number >= t.next });
wrong!(FirstHasCommitted: fn never_issued(&self, t: &Table, number: u32) -> bool { Right.never_issued(t, number) && number != t.first });
wrong!(NothingOldIssued: fn never_issued(&self, t: &Table, number: u32) -> bool { Right.never_issued(t, number) || number < t.first });
wrong!(LastOldUnknown: fn never_issued(&self, t: &Table, number: u32) -> bool { Right.never_issued(t, number) || number + 1 == t.first });
wrong!(OneUnknown: fn never_issued(&self, t: &Table, number: u32) -> bool { Right.never_issued(t, number) || (number == 1 && t.first > 1) });
wrong!(FarOldUnknown: fn never_issued(&self, t: &Table, number: u32) -> bool {
    Right.never_issued(t, number) || (number < t.first && t.next - number > 65_536)
});
wrong!(OldUnknownJustOpened: fn never_issued(&self, t: &Table, number: u32) -> bool { Right.never_issued(t, number) || t.first == t.next });
wrong!(OldUnknownLater: fn never_issued(&self, t: &Table, number: u32) -> bool {
    Right.never_issued(t, number) || (number < t.first && t.first < t.next)
});

/// A call refuses old numbers as before.
struct RefusesOldIn(Kind);

impl Model for RefusesOldIn {
    fn judge(&self, kind: Kind, table: &Table, asked: &Asked) -> Result<(), Refusal> {
        if kind == self.0 {
            NothingOldIssued.judge(kind, table, asked)
        } else {
            Right.judge(kind, table, asked)
        }
    }
}

wrong!(JoinRefusesOld: fn holds(&self, refusal: Refusal, t: &Table, asked: &Asked) -> bool {
    let joins = refusal == Refusal::NeverIssued && asked.length > 0 && self.joined(t, asked.block).is_some();
    Right.holds(refusal, t, asked) || (joins && asked.numbers.iter().any(|&number| old(t, number)))
});
wrong!(OldNamesNotCounted: fn holds(&self, refusal: Refusal, t: &Table, asked: &Asked) -> bool {
    let counted = asked.numbers.iter().filter(|&&number| !old(t, number)).count();
    if refusal == Refusal::ManyNames { counted > MOST_NAMED } else { Right.holds(refusal, t, asked) }
});
wrong!(OldEndsTheNames: fn named(&self, t: &Table, c: &Change) -> Slots {
    c.named.iter().take_while(|&&number| !old(t, number)).filter_map(|&number| t.slot_of(number)).collect()
});
wrong!(OldDropsAllNames: fn named(&self, t: &Table, c: &Change) -> Slots {
    if c.named.iter().any(|&number| old(t, number)) { Slots::new() } else { Right.named(t, c) }
});
wrong!(OldDropsTheOneBefore: fn named(&self, t: &Table, c: &Change) -> Slots {
    let dropped = |i: usize| c.named.get(i + 1).is_some_and(|&next| old(t, next));
    (0..c.named.len()).filter(|&i| !dropped(i)).filter_map(|i| t.slot_of(c.named[i])).collect()
});
wrong!(OldEndsTheTest: fn holds(&self, refusal: Refusal, t: &Table, asked: &Asked) -> bool {
    let mut judged = asked.numbers.iter().take_while(|&&number| !old(t, number));
    if refusal == Refusal::NeverIssued { judged.any(|&n| Right.never_issued(t, n)) } else { Right.holds(refusal, t, asked) }
});
wrong!(OldInUseIsSound: fn clause_holds(&self, clause: Clause, t: &Table) -> bool {
    let issued = t.patches().all(|(_, p)| !Right.never_issued(t, p.number));
    if clause == Clause::NumbersIssued { issued } else { Right.clause_holds(clause, t) }
});
wrong!(OldWaits: fn ask(&self, t: &Table, number: u32) -> Result<Standing, Refusal> {
    Right.ask(t, number).map(|standing| if old(t, number) { Standing::Waiting } else { standing })
});
wrong!(OldInFlight: fn ask(&self, t: &Table, number: u32) -> Result<Standing, Refusal> {
    Right.ask(t, number).map(|standing| if old(t, number) { Standing::InFlight } else { standing })
});
wrong!(OldWaitsInFreeSlot: fn ask(&self, t: &Table, number: u32) -> Result<Standing, Refusal> {
    let there = old(t, number) && t.slots.iter().any(|slot| slot.number == number);
    Right.ask(t, number).map(|standing| if there { Standing::Waiting } else { standing })
});
wrong!(JoinTakesOldForSlot0: fn gained(&self, t: &Table, c: &Change) -> Slots {
    let slot_0 = (t.slots[0].used() && t.slots[0].block != c.block && c.named.iter().any(|&n| old(t, n))).then_some(0);
    Right.gained(t, c).into_iter().chain(slot_0).collect()
});
wrong!(OpenStartsAt1: fn open(&self, first: u32) -> (Result<(), Refusal>, Table) {
    let (judged, table) = Right.open(first);
    (judged, Table { first: 1, ..table })
});

/// Takes an old number for that of a slot in use, if there is one such.
type Mistaken = fn(&Table, u32) -> Option<usize>;

fn slot_0(table: &Table, _: u32) -> Option<usize> {
    table.slots[0].used().then_some(0)
}

fn slot_by_digits(table: &Table, number: u32) -> Option<usize> {
    let slot = number as usize % SLOTS;
    table.slots[slot].used().then_some(slot)
}

fn alike_by<const DIGITS: u32>(table: &Table, number: u32) -> Option<usize> {
    table.patches().find(|(_, patch)| patch.number % DIGITS == number % DIGITS).map(|(slot, _)| slot)
}

fn lowest_in_use(table: &Table, _: u32) -> Option<usize> {
    table.patches().min_by_key(|(_, patch)| patch.number).map(|(slot, _)| slot)
}

/// A name from before the opening brings a before.
struct Follows(Mistaken);

impl Model for Follows {
    fn named(&self, table: &Table, change: &Change) -> Slots {
        let mistaken = change.named.iter().filter(|&&n| old(table, n)).filter_map(|&n| self.0(table, n));
        Right.named(table, change).into_iter().chain(mistaken).collect()
    }
}

/// Ask of a number from before the opening says how another stands.
struct Says(Mistaken);

impl Model for Says {
    fn ask(&self, table: &Table, number: u32) -> Result<Standing, Refusal> {
        let committed = Right.ask(table, number)?;
        let mistaken = if old(table, number) { self.0(table, number) } else { None };
        mistaken.map_or(Ok(committed), |slot| Right.ask(table, table.slots[slot].number))
    }
}

fn low_byte_of_room(slot: &mut Slot) {
    if let State::WaitingSoft { room } = &mut slot.state {
        *room %= 256;
    }
}

// ---- Complete and go on ----

/// Declares a wrong joint call: a name, and what it does with table, image, undo area, block handed out, x and y.
macro_rules! joint {
    ($name:ident: |$t:ident, $i:ident, $u:ident, $h:ident, $x:ident, $y:ident| $does:expr; $($rule:tt)*) => {
        struct $name;
        impl Model for $name {
            fn complete_write(&self, $t: &mut Table, $i: &[u8], $u: &[u8], $h: &mut [u8], $x: u32, $y: u32) -> Both { $does }
            $($rule)*
        }
    };
}

/// Both answers, of a write that was tried.
fn tried(first: Result<(), Refusal>, written: Result<Slots, Refusal>) -> Both {
    let second = written.as_ref().map_or_else(|&refusal| Second::Refused(refusal), |_| Second::Granted);
    Both { first, second, sent: written.unwrap_or_default() }
}

fn odd_sizes(table: &Table, image: &[u8], undo: &[u8], handed: &[u8]) -> bool {
    image.len() != IMAGE_BYTES || undo.len() != undo_bytes(table.setting) || handed.len() != BLOCK_BYTES
}

joint!(WritesOnTheOld: |t, i, u, h, x, y| match Right.given_by_completing(t, x) {
    Err(refusal) => Right.not_tried(refusal),
    Ok(_) => {
        let written = Right.write(t, i, u, h, y);
        tried(Right.complete(t, x), written)
    }
};);
joint!(WriteForgetsCompletion: |t, i, u, h, x, y| {
    let mut old = t.clone();
    let both = Right.complete_write(t, i, u, h, x, y);
    if both.second == Second::Granted && Right.write(&mut old, i, u, &mut h.to_vec(), y).is_ok() { *t = old }
    both
};);
joint!(SendsWhatWentBefore: |t, i, u, h, x, y| {
    let went = Right.largest_that_may_go(t, y);
    let both = Right.complete_write(t, i, u, h, x, y);
    let stay = both.sent.difference(&went).filter(|_| x != y && !went.is_empty());
    stay.for_each(|&slot| t.slots[slot].state = State::WaitingHard);
    Both { sent: both.sent.iter().copied().filter(|slot| x == y || went.is_empty() || went.contains(slot)).collect(), ..both }
};);
joint!(TriesAnyhow: |t, i, u, h, x, y| {
    let first = Right.complete(t, x);
    tried(first, Right.write(t, i, u, h, y))
}; fn writes_the_table(&self, _: &Both) -> bool { true });
joint!(TriesInSecret: |t, i, u, h, x, y| {
    let both = Right.complete_write(t, i, u, h, x, y);
    if both.first.is_err() { let _ = Right.write(t, i, u, h, y); }
    both
}; fn writes_the_table(&self, _: &Both) -> bool { true });
joint!(TriesWithoutTheTable: |t, i, u, h, x, y| {
    let both = Right.complete_write(t, i, u, h, x, y);
    if both.first.is_err() { let _ = Right.write(&mut t.clone(), i, u, h, y); }
    both
};);
joint!(SaysWhatItWouldBe: |t, i, u, h, x, y| {
    let both = Right.complete_write(t, i, u, h, x, y);
    if both.first.is_ok() { both } else { Both { sent: Slots::new(), ..tried(both.first, Right.write(&mut t.clone(), i, u, &mut h.to_vec(), y)) } }
};);
joint!(CompletionUndone: |t, i, u, h, x, y| {
    let old = t.clone();
    let both = Right.complete_write(t, i, u, h, x, y);
    if both.second != Second::Granted { *t = old }
    both
};);
joint!(CompletionUnsaid: |t, i, u, h, x, y| {
    let old = t.clone();
    let both = Right.complete_write(t, i, u, h, x, y);
    if let Second::Refused(refusal) = both.second { *t = old; Right.not_tried(refusal) } else { both }
};);
joint!(BlocksSwapped: |t, i, u, h, x, y| Right.complete_write(t, i, u, h, y, x););
joint!(CompletesBoth: |t, i, u, h, x, y| {
    let both = Right.complete_write(t, i, u, h, x, y);
    if both.second == Second::Refused(Refusal::OneInFlight) { let _ = Right.complete(t, y); }
    both
};);
joint!(NotTriedIsGranted: |t, i, u, h, x, y| {
    let both = Right.complete_write(t, i, u, h, x, y);
    if both.first.is_err() { Both { second: Second::Granted, ..both } } else { both }
};);
joint!(NotTriedIs14: |t, i, u, h, x, y| {
    let both = Right.complete_write(t, i, u, h, x, y);
    if both.first.is_err() { Both { second: Second::Refused(Refusal::NoneInFlight), ..both } } else { both }
};);
joint!(NotTriedIsTheFirst: |t, i, u, h, x, y| {
    let both = Right.complete_write(t, i, u, h, x, y);
    match both.first { Err(refusal) => Both { second: Second::Refused(refusal), ..both }, Ok(()) => both }
};);
joint!(RefusedIsNotTried: |t, i, u, h, x, y| {
    let both = Right.complete_write(t, i, u, h, x, y);
    if both.second == Second::Granted { both } else { Both { second: Second::NotTried, ..both } }
};);
joint!(BuffersFirst: |t, i, u, h, x, y| {
    if odd_sizes(t, i, u, h) { Right.not_tried(Refusal::BufferSize) } else { Right.complete_write(t, i, u, h, x, y) }
};);
joint!(BuffersKeepFromCompleting: |t, i, u, h, x, y| {
    let odd = odd_sizes(t, i, u, h);
    let kept = t.clone();
    let both = Right.complete_write(t, i, u, h, x, y);
    if odd { *t = kept }
    both
};);
joint!(BuffersSaidThoughNotTried: |t, i, u, h, x, y| {
    let odd = odd_sizes(t, i, u, h);
    let both = Right.complete_write(t, i, u, h, x, y);
    if odd { Both { second: Second::Refused(Refusal::BufferSize), ..both } } else { both }
};);
joint!(YJudgedFirst: |t, i, u, h, x, y| {
    if y > LAST_BLOCK && Right.sound(t) { Right.not_tried(Refusal::BlockAbove63) } else { Right.complete_write(t, i, u, h, x, y) }
};);
joint!(SetThoughRefused: |t, i, u, h, x, y| {
    let both = Right.complete_write(t, i, u, h, x, y);
    if matches!(both.second, Second::Refused(_)) { Both { sent: t.waiting(y), ..both } } else { both }
};);
joint!(SetThoughNotTried: |t, i, u, h, x, y| {
    let both = Right.complete_write(t, i, u, h, x, y);
    if both.first.is_err() { Both { sent: t.waiting(y), ..both } } else { both }
};);
joint!(HandedCleared: |t, i, u, h, x, y| {
    let both = Right.complete_write(t, i, u, h, x, y);
    if matches!(both.second, Second::Refused(_)) { h.fill(0) }
    both
};);
joint!(HandedClearedNotTried: |t, i, u, h, x, y| {
    let both = Right.complete_write(t, i, u, h, x, y);
    if both.first.is_err() { h.fill(0) }
    both
};);
joint!(HandedOutThoughHeld: |t, i, u, h, x, y| {
    let both = Right.complete_write(t, i, u, h, x, y);
    if both.second == Second::Refused(Refusal::NoneMayGo) { h.copy_from_slice(&i[BLOCK_BYTES * y as usize..][..BLOCK_BYTES]) }
    both
};);
joint!(SameRefused: |t, i, u, h, x, y| {
    if x == y && Right.given_by_completing(t, x).is_ok() { Right.not_tried(Refusal::NoneInFlight) } else { Right.complete_write(t, i, u, h, x, y) }
};);
joint!(SameInFlightStill: |t, i, u, h, x, y| {
    if x != y { return Right.complete_write(t, i, u, h, x, y) }
    match Right.complete(t, x) {
        Err(refusal) => Right.not_tried(refusal),
        Ok(()) => tried(Ok(()), Err(Refusal::OneInFlight)),
    }
};);
joint!(AnswersSwapped: |t, i, u, h, x, y| {
    let both = Right.complete_write(t, i, u, h, x, y);
    match both.second { Second::Refused(refusal) => Both { first: Err(refusal), second: Second::Granted, ..both }, _ => both }
}; fn writes_the_table(&self, _: &Both) -> bool { true });
wrong!(RefusedYetTableWritten: fn writes_the_table(&self, _: &Both) -> bool { true });
wrong!(TableWrittenIfSent: fn writes_the_table(&self, both: &Both) -> bool { both.second == Second::Granted });

/// Reads each slot in another way, before it judges the table.
struct Reads(fn(&mut Slot));

impl Model for Reads {
    fn sound(&self, table: &Table) -> bool {
        let mut read = table.clone();
        read.slots.iter_mut().for_each(self.0);
        Right.sound(&read)
    }
}

/// Tells numbers apart by what is left of them when divided by this.
struct ApartBy(u32);

impl Model for ApartBy {
    fn sound(&self, table: &Table) -> bool {
        let digits: BTreeSet<u32> = table.patches().map(|(_, p)| p.number % self.0).collect();
        Right.sound(table) && digits.len() == table.patches().count()
    }
}

/// Does not test one clause of soundness.
struct Forgets(Clause);

impl Model for Forgets {
    fn tests_clause(&self, clause: Clause) -> bool {
        clause != self.0
    }
}

/// A wrong model behind the library's interface, and whether the cuts alone must catch it.
struct Entry {
    name: String,
    library: Box<dyn Library>,
    cuts_must: bool,
}

fn entry(name: &str, model: impl Model + 'static, cuts_must: bool) -> Entry {
    Entry { name: String::from(name), library: Box::new(Mock(model)), cuts_must }
}

fn entries() -> Vec<Entry> {
    let mut entries = vec![
        entry("only the offset is tested, not its end", OffsetOnly, false),
        entry("the same, in judging the table too", OffsetOnlyThroughout, true),
        entry("in flight elsewhere treated as committed", InFlightIsCommitted, true),
        entry("taken back lowest number first", LowestFirst, true),
        entry("a hard patch left behind", HardLeftBehind, true),
        entry("a number in no slot is unknown", NoSlotIsUnknown, false),
        entry("one pass of striking", OnePass, true),
        entry("offset + length wraps in 32 bits", SumWraps, false),
        entry("the end of the block off by one", EndOffByOne, false),
        entry("taken back in order of slots", SlotOrder, true),
        entry("nothing taken back", TakesNothingBack, true),
        entry("the coming number passes for issued", NextIsIssued, true),
        entry("hard ones go alone where they may", SmallestSet, false),
        entry("touching ranges overlap", TouchingOverlaps, false),
        entry("overlap with one in flight is no before", OverlapOnlyWaiting, false),
        entry("overlap across blocks", OverlapOnEveryBlock, false),
        entry("a named number in flight is no before", NamesOnlyWaiting, true),
        entry("slots from 1", SlotsFromOne, true),
        entry("highest free slot", HighestSlot, true),
        entry("fifteen rooms", FifteenRooms, false),
        entry("room not freed: soft stays soft", SoftStaysSoft, false),
        entry("soft of every block turns hard", TurnsEveryBlock, false),
        entry("always hard", AlwaysHard, false),
        entry("in flight and followed makes soft", InFlightHoldsSoft, false),
        entry("only waiting followers make soft", OnlyWaitingHoldsSoft, false),
        entry("rest of the room wiped", RoomWiped, false),
        entry("old bytes not kept", RoomForgotten, true),
        entry("a sent patch loses its befores", SentLosesBefores, false),
        entry("befores kept on complete", BeforesKept, false),
        entry("free slots cleaned on complete", CleansFreeSlots, false),
        entry("count counts in flight", CountsInFlight, false),
        entry("ask says committed for in flight", AskSaysCommitted, false),
        entry("create: 5 before 4", Swapped(Kind::Create, Refusal::DataLength, Refusal::PastTheEnd), false),
        entry(
            "create: 8 before 7",
            Swapped(Kind::Create, Refusal::NeverIssued, Refusal::NoNumberLeft),
            false,
        ),
        entry("create: 10 before 9", Swapped(Kind::Create, Refusal::NoFreeSlot, Refusal::NoFreeRoom), false),
        entry("write: 12 before 11", Swapped(Kind::Write, Refusal::OneInFlight, Refusal::NoneWaits), false),
        entry("answers number 1 each time", AlwaysNumberOne, true),
        entry("says granted, touches nothing", TouchesNothing, true),
        entry("refuses everything", RefusesEverything, false),
        entry("later writes only said", LaterWritesOnlySaid, false),
        entry("a count that is invented", InventedCount, true),
        entry("numbers told apart by ten digits alone", ApartBy(1_024), false),
        entry("numbers told apart by twelve digits alone", ApartBy(4_096), false),
        entry("only room 15 must not be shared", OnlyLastRoomShared, false),
        entry("rooms 17 to 63 pass", HighRoomsPass, false),
        entry("a table's block by its low byte", Reads(|slot| slot.block %= 256), false),
        entry("a table's length by its low byte", Reads(|slot| slot.length %= 256), false),
        entry("a table's offset by its low 16 digits", Reads(|slot| slot.offset %= 65_536), false),
        entry("a table's number by its low 24 digits", Reads(|slot| slot.number %= 1 << 24), false),
        entry("a table's room by its low byte", Reads(low_byte_of_room), false),
        entry("a before that has remains passes for used", RemainsAreUsed, false),
        entry("only neighbours must have other numbers", NeighboursDiffer, false),
        entry("slot 63 is not judged", LastSlotUnjudged, false),
        entry("remains in free slots are judged", RemainsJudged, false),
        entry("first 1,000,000,000 is not sound", FirstBelowLast, false),
        entry("next 1,000,000,001 is not sound", NextAtMostLast, false),
        entry("committed 65,537 numbers ago is unknown", CommittedLongAgoUnknown, false),
        entry("names counted in 8 bits", NamesInEightBits, false),
        entry("data length in 8 bits", LengthInEightBits, false),
        entry("taken back by the low 16 digits", OrderBySixteenBits, false),
        entry("at most 15 taken back", FifteenTakenBack, false),
        entry("a struck hard one seen in 8 rounds only", HardSeenInEightRounds, false),
        entry("befores in a circle never go", CirclesStay, false),
        entry("only the lowest soft one turns hard", TurnsOnlyTheLowest, false),
        entry("only the lowest committed is forgotten", ForgetsTheLowestOnly, false),
        entry("open refused keeps the first given", OpenKeepsFirst, false),
    ];
    entries.extend(joining());
    entries.extend(before_the_opening());
    entries.extend(going_on());
    for clause in CLAUSES {
        entries.push(entry(&format!("soundness without {clause:?}"), Forgets(clause), false));
    }
    entries
}

/// A soft creation that joins, or a hard one that does not, breaks no cut: the one may leave patches that never go, the other takes a
/// slot more.
fn joining() -> Vec<Entry> {
    vec![
        entry("joins the highest-numbered", JoinsTheHighest, true),
        entry("joins the one in the lowest slot", JoinsTheLowestSlot, true),
        entry("joins a patch in flight", JoinsInFlight, true),
        entry("a soft creation joins", SoftJoins, false),
        entry("joins only a patch that was hard already", JoinsOnlyTheHard, false),
        entry("never joins", NeverJoins, false),
        entry("the range grows with the join", RangeGrows, false),
        entry("next grows with a join", NextGrows, true),
        entry("only the joined one turns hard", OnlyTheJoinedTurns, false),
        entry("a join adds befores of its own block", GainsItsOwnBlock, false),
        entry("a join adds named ones in flight there", GainsInFlightHere, false),
        entry("a join adds hard ones in flight there", GainsHardHere, false),
        entry("a join adds no befores", GainsNothing, true),
        entry("a join adds only befores that wait", GainsOnlyWaiting, true),
        entry("a join adds one before at most", GainsOneOnly, true),
        entry("a join's befores replace the old ones", GainedReplace, true),
        entry("follows only hard ones that it overlaps", FollowsOnlyOverlapped, false),
        entry("follows no hard one in flight apart", FollowsOnlyWaitingHard, false),
        entry("follows no hard one waiting apart", FollowsOnlyHardInFlight, false),
        entry("follows every patch of its block", FollowsAllOfItsBlock, false),
        entry("a join writes the undo area", JoinWritesUndo, false),
        entry("a joined change's data is lost", JoinedDataLost, true),
        entry("a join answers the coming number", JoinAnswersNext, true),
        entry("8 given to one that joins", RefusesJoins(Refusal::NoNumberLeft), false),
        entry("9 given to one that joins", RefusesJoins(Refusal::NoFreeSlot), false),
        entry("8 not given to a soft one beside others", SpareOfSoft(Refusal::NoNumberLeft), false),
        entry("9 not given to a soft one beside others", SpareOfSoft(Refusal::NoFreeSlot), false),
    ]
}

/// A refusal breaks no cut, and neither does one before too many.
fn before_the_opening() -> Vec<Entry> {
    vec![
        entry("0 passes for committed", ZeroHasCommitted, true),
        entry("first passes for committed, not yet issued", FirstHasCommitted, true),
        entry("numbers below first are refused", NothingOldIssued, false),
        entry("the same, in create only", RefusesOldIn(Kind::Create), false),
        entry("the same, in ask only", RefusesOldIn(Kind::Ask), false),
        entry("the same, where the change joins", JoinRefusesOld, false),
        entry("the same, for first - 1 alone", LastOldUnknown, false),
        entry("the same, for 1 alone", OneUnknown, false),
        entry("the same, 65,537 numbers ago", FarOldUnknown, false),
        entry("the same, until one is issued", OldUnknownJustOpened, false),
        entry("the same, once one is issued", OldUnknownLater, false),
        entry("names below first are not counted", OldNamesNotCounted, false),
        entry("names after one below first are dropped", OldEndsTheNames, true),
        entry("all names beside one below first dropped", OldDropsAllNames, true),
        entry("the name before one below first dropped", OldDropsTheOneBefore, true),
        entry("names after one below first not tested", OldEndsTheTest, true),
        entry("below first taken for slot 0's, in create", Follows(slot_0), false),
        entry("below first taken for slot 0's, in ask", Says(slot_0), true),
        entry("below first taken for slot 0's, in a join", JoinTakesOldForSlot0, false),
        entry("below first taken for slot % 64, in create", Follows(slot_by_digits), false),
        entry("below first taken for slot % 64, in ask", Says(slot_by_digits), true),
        entry("below first by low byte, in create", Follows(alike_by::<256>), false),
        entry("below first by low byte, in ask", Says(alike_by::<256>), false),
        entry("below first by low 16 digits, in create", Follows(alike_by::<65_536>), false),
        entry("below first by low 16 digits, in ask", Says(alike_by::<65_536>), false),
        entry("below first taken for the lowest in use", Follows(lowest_in_use), false),
        entry("ask below first says waiting", OldWaits, true),
        entry("ask below first says in flight", OldInFlight, true),
        entry("ask below first is found in a free slot", OldWaitsInFreeSlot, false),
        entry("a number in use below first is sound", OldInUseIsSound, false),
        entry("open forgets its first number", OpenStartsAt1, false),
    ]
}

/// A refusal too many breaks no cut, nor does a block that is handed out and not sent.
fn going_on() -> Vec<Entry> {
    vec![
        entry("joint: the write on the table before", WritesOnTheOld, false),
        entry("joint: a granted write loses the completion", WriteForgetsCompletion, true),
        entry("joint: only what could go before goes", SendsWhatWentBefore, true),
        entry("joint: tried though completing is refused", TriesAnyhow, true),
        entry("joint: the same, and not tried said", TriesInSecret, true),
        entry("joint: the same, but for the table", TriesWithoutTheTable, false),
        entry("joint: not tried, said what it would be", SaysWhatItWouldBe, true),
        entry("joint: write refused, completion undone", CompletionUndone, true),
        entry("joint: the same, and said to be refused", CompletionUnsaid, false),
        entry("joint: the two blocks swapped", BlocksSwapped, true),
        entry("joint: y in flight is completed too", CompletesBoth, true),
        entry("joint: not tried answered as 0", NotTriedIsGranted, true),
        entry("joint: not tried answered as 14", NotTriedIs14, true),
        entry("joint: not tried answered as the first", NotTriedIsTheFirst, true),
        entry("joint: a refused write answered not tried", RefusedIsNotTried, true),
        entry("joint: buffers judged before completing", BuffersFirst, false),
        entry("joint: wrong buffers keep from completing", BuffersKeepFromCompleting, true),
        entry("joint: 1 said though not tried", BuffersSaidThoughNotTried, true),
        entry("joint: y above 63 refused at first", YJudgedFirst, false),
        entry("joint: the set told though refused", SetThoughRefused, true),
        entry("joint: the set told though not tried", SetThoughNotTried, true),
        entry("joint: handed block cleared on refusal", HandedCleared, false),
        entry("joint: handed block cleared, not tried", HandedClearedNotTried, false),
        entry("joint: refused 13, the block handed out", HandedOutThoughHeld, false),
        entry("joint: first refused, table written", RefusedYetTableWritten, false),
        entry("joint: table written only if some went", TableWrittenIfSent, true),
        entry("joint: x = y refused", SameRefused, false),
        entry("joint: x = y, the write refused 11", SameInFlightStill, false),
        entry("joint: a refused write is the first answer", AnswersSwapped, true),
    ]
}

/// The most calls given to the comparison, and to the cuts alone, to catch a wrong model.
const COMPARE_CALLS: u64 = 500_000;
const CUT_CALLS: u64 = 20_000;
const SEED: u64 = 7;

/// At which call a wrong model was caught, and by what.
struct Caught {
    calls: u64,
    by: String,
}

fn caught_by_cuts(library: &dyn Library) -> Option<u64> {
    let mut driver = Driver::new(Pair { library, model: None });
    driver.run(SEED, CUT_CALLS, &mut |_| ()).err().map(|_| driver.sums.calls)
}

/// The fixed cases first, then the sweep over tables, then orders: as in every run.
fn caught(pair: Pair, show: bool) -> Option<Caught> {
    let mut driver = Driver::new(pair);
    let mut before = 0;
    let written: [(&str, Written); 3] =
        [("fixed cases", fixed::run), ("figures", paper::run), ("tables", sweep::run)];
    for (name, run) in written {
        match run(pair, &mut driver.cover) {
            Ok(calls) => before += calls as u64,
            Err((calls, what)) => {
                let first = if show { &what } else { what.lines().next().unwrap_or("") };
                return Some(Caught { calls: before + calls as u64, by: format!("{name}: {first}") });
            }
        }
    }
    let failed = *driver.run(SEED, COMPARE_CALLS - before, &mut |_| ()).err()?;
    let (order, failure) = shrink::shrink(pair, failed.order, failed.failure);
    let last = order.steps.last().map(|step| format!("{:?}", step.kind())).unwrap_or_default();
    let what = failure.what.lines().next().unwrap_or("").trim_end_matches(':');
    let answers = failure.model.map_or(String::new(), |m| both(&failure.library, &m));
    let mut by = format!("orders, {} calls: {last}: {what}{answers}", order.steps.len());
    if show {
        by = format!("{by}\n{}", shrink::printed(&order, &failure));
    }
    Some(Caught { calls: before + driver.sums.calls, by })
}

type Written = fn(Pair, &mut Cover) -> Result<usize, (usize, String)>;

/// Runs every wrong model; true when all were caught.
pub fn run(show: bool) -> bool {
    let right = Mock(Right);
    let mut all_caught = true;
    println!("{:42} {:>8} {:>9}  caught by", "wrong model", "at call", "cuts only");
    for Entry { name, library, cuts_must } in entries() {
        let by_cuts = caught_by_cuts(&*library);
        let cuts = by_cuts.map_or(String::from("-"), |calls| calls.to_string());
        match caught(Pair { library: &*library, model: Some(&right) }, show) {
            Some(Caught { calls, by }) => println!("{name:42} {calls:>8} {cuts:>9}  {by}"),
            None => {
                println!("{name:42} NOT CAUGHT in {COMPARE_CALLS} calls");
                all_caught = false;
            }
        }
        if cuts_must && by_cuts.is_none() {
            println!("{:42} NOT CAUGHT by the cuts alone in {CUT_CALLS} calls", "");
            all_caught = false;
        }
    }
    all_caught
}

/// What differs in two answers, wrong one first.
fn both(wrong: &Answer, right: &Answer) -> String {
    let fields = [
        ("refusal", u64::from(wrong.refusal), u64::from(right.refusal)),
        ("number", u64::from(wrong.number), u64::from(right.number)),
        ("hold", u64::from(wrong.hold), u64::from(right.hold)),
        ("set", wrong.set, right.set),
        ("state", u64::from(wrong.state), u64::from(right.state)),
        ("count", u64::from(wrong.count), u64::from(right.count)),
        ("second", u64::from(wrong.second), u64::from(right.second)),
    ];
    match fields.iter().find(|(_, wrong, right)| wrong != right) {
        Some((field, wrong, right)) => format!(", {field} {wrong} for {right}"),
        None => String::new(),
    }
}
