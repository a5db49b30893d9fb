//! The model: the rules of document 01 and of requests a, b and d, said once more and in another way than the library.
//!
//! Every rule is a method of the trait `Model` with its body here. `Right` takes them all as they
//! are. A wrong model (wrong.rs) replaces one of them and keeps the rest.
//!
//! Sets are sets of slot numbers, not masks. The largest set that may go is found by trying every
//! subset when few patches wait, else by following befores. No striking in rounds is done here.

use crate::model::setting::Setting;
use crate::model::table::*;
use std::collections::BTreeSet;

/// Puts bytes into a lent buffer from a place on.
fn put(into: &mut [u8], from: usize, bytes: &[u8]) {
    for (place, byte) in into.iter_mut().skip(from).zip(bytes) {
        *place = *byte;
    }
}

fn block_start(block: u32) -> usize {
    BLOCK_BYTES * block as usize
}

fn room_start(room: u32) -> usize {
    ROOM_BYTES * room as usize
}

pub trait Model {
    /// What open gives its table. All other rules ask the table.
    fn setting(&self) -> Setting {
        Setting::Board
    }

    // ---- The table: when it is sound, and what its numbers mean ----

    fn tests_clause(&self, _clause: Clause) -> bool {
        true
    }

    fn sound(&self, table: &Table) -> bool {
        CLAUSES.iter().all(|&clause| !self.tests_clause(clause) || self.clause_holds(clause, table))
    }

    fn clause_holds(&self, clause: Clause, table: &Table) -> bool {
        let every = |test: &dyn Fn(usize, &Slot) -> bool| table.patches().all(|(i, p)| test(i, p));
        match clause {
            Clause::First => 1 <= table.first && table.first <= LAST_NUMBER,
            Clause::Next => table.first <= table.next && table.next <= LAST_NUMBER + 1,
            Clause::NumbersIssued => every(&|_, p| table.first <= p.number && p.number < table.next),
            Clause::NumbersDiffer => all_different(table.patches().map(|(_, p)| p.number)),
            Clause::Blocks => every(&|_, p| p.block <= LAST_BLOCK),
            Clause::Lengths => every(&|_, p| 1 <= p.length && p.length <= LONGEST_DATA as u32),
            Clause::Ends => every(&|_, p| p.end() <= BLOCK_BYTES as u64),
            Clause::BeforesUsed => every(&|_, p| p.befores.iter().all(|&b| table.slots[b].used())),
            Clause::BeforesNotOwn => every(&|i, p| !p.befores.contains(&i)),
            Clause::Rooms => table.rooms_taken().iter().all(|&room| room < table.setting.rooms()),
            Clause::RoomsDiffer => all_different(table.rooms_taken().into_iter()),
        }
    }

    /// A number from 1 up to next - 1 was issued; in no slot, it has committed. Those below first are in none: they were given before
    /// this opening.
    fn never_issued(&self, table: &Table, number: u32) -> bool {
        number == 0 || number >= table.next
    }

    // ---- Refusals: the table "holds when", and each call's tests in rising number ----

    fn tests(&self, kind: Kind) -> Vec<Refusal> {
        use Refusal::*;
        match kind {
            Kind::Open => vec![FirstNumber],
            Kind::Create => vec![
                BufferSize,
                NotSound,
                BlockAbove63,
                DataLength,
                PastTheEnd,
                ManyNames,
                NeverIssued,
                NoNumberLeft,
                NoFreeSlot,
                NoFreeRoom,
            ],
            Kind::Write => vec![BufferSize, NotSound, BlockAbove63, OneInFlight, NoneWaits, NoneMayGo],
            // Of a joint call the first answer: the write tests as a write does.
            Kind::Complete | Kind::CompleteWrite => vec![NotSound, BlockAbove63, NoneInFlight],
            Kind::Ask => vec![NotSound, NeverIssued],
            Kind::Count => vec![NotSound, BlockAbove63],
        }
    }

    fn holds(&self, refusal: Refusal, table: &Table, asked: &Asked) -> bool {
        match refusal {
            Refusal::BufferSize => asked.sizes_wrong,
            Refusal::NotSound => !self.sound(table),
            Refusal::BlockAbove63 => asked.block > LAST_BLOCK,
            Refusal::DataLength => asked.length == 0 || asked.length > LONGEST_DATA,
            Refusal::PastTheEnd => self.past_the_end(asked.offset, asked.length),
            Refusal::ManyNames => self.too_many_names(asked.numbers.len()),
            Refusal::NeverIssued => asked.numbers.iter().any(|&n| self.never_issued(table, n)),
            Refusal::NoNumberLeft => {
                table.next == LAST_NUMBER + 1 && self.joined(table, asked.block).is_none()
            }
            Refusal::NoFreeSlot => {
                self.lowest_free_slot(table).is_none() && self.joined(table, asked.block).is_none()
            }
            Refusal::NoFreeRoom => {
                !self.would_be_hard(table, asked.block) && self.lowest_free_room(table).is_none()
            }
            Refusal::OneInFlight => !table.in_flight(asked.block).is_empty(),
            Refusal::NoneWaits => table.waiting(asked.block).is_empty(),
            Refusal::NoneMayGo => self.largest_that_may_go(table, asked.block).is_empty(),
            Refusal::NoneInFlight => table.in_flight(asked.block).is_empty(),
            Refusal::FirstNumber => asked.numbers.iter().any(|&n| n == 0 || n > LAST_NUMBER),
        }
    }

    fn too_many_names(&self, names: usize) -> bool {
        names > MOST_NAMED
    }

    fn past_the_end(&self, offset: u32, length: usize) -> bool {
        u64::from(offset) + length as u64 > BLOCK_BYTES as u64
    }

    /// The first refusal that holds, if any.
    fn judge(&self, kind: Kind, table: &Table, asked: &Asked) -> Result<(), Refusal> {
        match self.tests(kind).into_iter().find(|&refusal| self.holds(refusal, table, asked)) {
            Some(refusal) => Err(refusal),
            None => Ok(()),
        }
    }

    // ---- Open ----

    /// The table that open gives, granted or refused.
    fn open(&self, first: u32) -> (Result<(), Refusal>, Table) {
        let asked = Asked { numbers: &[first], ..Asked::default() };
        let judged = self.judge(Kind::Open, &Table::empty(self.setting(), 1), &asked);
        let opened = if judged.is_ok() { first } else { 1 };
        (judged, Table::empty(self.setting(), opened))
    }

    // ---- Create ----

    /// Answers the number of the patch that has the change now, and that patch's state: hard, or soft with its room.
    fn create(
        &self,
        table: &mut Table,
        image: &mut [u8],
        undo: &mut [u8],
        change: &Change,
    ) -> Result<(u32, State), Refusal> {
        let asked = Asked {
            sizes_wrong: image.len() != IMAGE_BYTES || undo.len() != undo_bytes(table.setting),
            block: change.block,
            offset: change.offset,
            length: change.data.len(),
            numbers: change.named,
        };
        self.judge(Kind::Create, table, &asked)?;
        let start = block_start(change.block) + change.offset as usize;
        let slot = match self.joined(table, change.block) {
            Some(slot) => {
                self.join(table, slot, change);
                slot
            }
            None => {
                let old: Vec<u8> = image.iter().skip(start).take(change.data.len()).copied().collect();
                self.add(table, undo, change, &old)?
            }
        };
        put(image, start, change.data);
        Ok((table.slots[slot].number, table.slots[slot].state))
    }

    /// The slot of the patch that a creation on the block joins: of those that wait the one with the lowest number, where the
    /// creation would be hard. None where it makes a patch of its own.
    fn joined(&self, table: &Table, block: u32) -> Option<usize> {
        let may = table.setting.joins() && self.would_be_hard(table, block);
        table.waiting(block).into_iter().filter(|_| may).min_by_key(|&slot| table.slots[slot].number)
    }

    /// The change is the joined patch's from now on: it goes where that goes, and that follows what the change must follow.
    fn join(&self, table: &mut Table, slot: usize, change: &Change) {
        let gained = self.gained(table, change);
        self.turn_waiting_soft_hard(table, change.block);
        table.slots[slot].befores.extend(gained);
    }

    /// The befores that a change brings to the patch it joins: on other blocks alone, since a block's hard patches leave together.
    fn gained(&self, table: &Table, change: &Change) -> Slots {
        self.named(table, change).into_iter().filter(|&i| table.slots[i].block != change.block).collect()
    }

    /// A patch of its own, in the lowest free slot; soft, it keeps the old bytes.
    fn add(&self, table: &mut Table, undo: &mut [u8], change: &Change, old: &[u8]) -> Result<usize, Refusal> {
        let slot = self.lowest_free_slot(table).ok_or(Refusal::NoFreeSlot)?;
        let befores = self.befores(table, change);
        let state = if self.would_be_hard(table, change.block) {
            self.turn_waiting_soft_hard(table, change.block);
            State::WaitingHard
        } else {
            let room = self.lowest_free_room(table).ok_or(Refusal::NoFreeRoom)?;
            self.keep_old_bytes(undo, room, old);
            State::WaitingSoft { room }
        };
        let (number, length) = (table.next, change.data.len() as u32);
        table.slots[slot] =
            Slot { state, number, block: change.block, offset: change.offset, length, befores };
        table.next += 1;
        Ok(slot)
    }

    fn lowest_free_slot(&self, table: &Table) -> Option<usize> {
        (0..SLOTS).find(|&i| !table.slots[i].used())
    }

    fn lowest_free_room(&self, table: &Table) -> Option<u32> {
        let taken = table.rooms_taken();
        (0..table.setting.rooms()).find(|room| !taken.contains(room))
    }

    /// What a new patch follows: the named ones, those it overlaps, and every hard one of its block. Judged before any turns hard.
    fn befores(&self, table: &Table, change: &Change) -> Slots {
        let overlapped = table.patches().filter(|(_, p)| self.overlaps(p, change)).map(|(i, _)| i);
        let mut befores: Slots = overlapped.collect();
        befores.extend(self.named(table, change));
        befores.extend(self.hard_ones(table, change.block));
        befores
    }

    /// The slots of the named numbers that have not committed.
    fn named(&self, table: &Table, change: &Change) -> Slots {
        change.named.iter().filter_map(|&number| table.slot_of(number)).collect()
    }

    /// The block's hard patches, waiting or in flight. The range of one does not tell where the changes went that joined it.
    fn hard_ones(&self, table: &Table, block: u32) -> Slots {
        table.patches().filter(|(_, p)| p.block == block && p.hard()).map(|(i, _)| i).collect()
    }

    /// Waiting or in flight, of the same block, with a byte in common.
    fn overlaps(&self, patch: &Slot, change: &Change) -> bool {
        let end = u64::from(change.offset) + change.data.len() as u64;
        patch.block == change.block && self.share_a_byte(patch, u64::from(change.offset), end)
    }

    fn share_a_byte(&self, patch: &Slot, start: u64, end: u64) -> bool {
        (u64::from(patch.offset)..patch.end()).any(|byte| start <= byte && byte < end)
    }

    /// No patch on another block has a waiting patch of this block among its befores.
    fn would_be_hard(&self, table: &Table, block: u32) -> bool {
        let waiting = table.waiting(block);
        !table.setting.all_soft()
            && !table.patches().any(|(_, p)| p.block != block && !p.befores.is_disjoint(&waiting))
    }

    fn turn_waiting_soft_hard(&self, table: &mut Table, block: u32) {
        for slot in table.waiting(block) {
            table.slots[slot].state = State::WaitingHard;
        }
    }

    /// The old bytes go into the room's first bytes; the rest of the room stays.
    fn keep_old_bytes(&self, undo: &mut [u8], room: u32, old: &[u8]) {
        put(undo, room_start(room), old);
    }

    // ---- Write ----

    /// Answers the slots sent.
    fn write(
        &self,
        table: &mut Table,
        image: &[u8],
        undo: &[u8],
        handed: &mut [u8],
        block: u32,
    ) -> Result<Slots, Refusal> {
        let undo_size = undo_bytes(table.setting);
        let lent = [(image.len(), IMAGE_BYTES), (undo.len(), undo_size), (handed.len(), BLOCK_BYTES)];
        let sizes_wrong = lent.iter().any(|(size, exact)| size != exact);
        self.judge(Kind::Write, table, &Asked { sizes_wrong, block, ..Asked::default() })?;
        let sent = self.largest_that_may_go(table, block);
        let left_behind: Slots = table.waiting(block).difference(&sent).copied().collect();
        put(handed, 0, &image[block_start(block)..block_start(block) + BLOCK_BYTES]);
        for slot in self.order_of_taking_back(table, &left_behind) {
            self.take_back(&table.slots[slot], undo, handed);
        }
        for &slot in &sent {
            self.send(&mut table.slots[slot]);
        }
        Ok(sent)
    }

    /// May this subset of the block's waiting patches go? The definition, word by word.
    fn may_go(&self, table: &Table, block: u32, subset: &Slots) -> bool {
        let befores_in_it = subset.iter().all(|&i| self.must_follow(table, i).is_subset(subset));
        befores_in_it && (subset.is_empty() || self.has_all_hard(table, block, subset))
    }

    fn must_follow(&self, table: &Table, slot: usize) -> Slots {
        table.slots[slot].befores.clone()
    }

    fn has_all_hard(&self, table: &Table, block: u32, subset: &Slots) -> bool {
        table.hard_waiting(block).is_subset(subset)
    }

    fn largest_that_may_go(&self, table: &Table, block: u32) -> Slots {
        if table.waiting(block).len() <= FEW {
            self.largest_by_trying(table, block)
        } else {
            self.largest_by_following(table, block)
        }
    }

    /// Tries every subset and keeps the largest that may go.
    fn largest_by_trying(&self, table: &Table, block: u32) -> Slots {
        let mut subsets = vec![Slots::new()];
        for slot in table.waiting(block) {
            for i in 0..subsets.len() {
                let mut with_it = subsets[i].clone();
                with_it.insert(slot);
                subsets.push(with_it);
            }
        }
        subsets.retain(|subset| self.may_go(table, block, subset));
        subsets.into_iter().max_by_key(|subset| subset.len()).unwrap_or_default()
    }

    /// A patch is in some closed subset exactly when all that stands before it, straight or
    /// through others, waits on this block. These patches together are the largest closed subset;
    /// it may go when it has all hard patches, and else nothing but the empty one may.
    fn largest_by_following(&self, table: &Table, block: u32) -> Slots {
        let waiting = table.waiting(block);
        let all_here = |&i: &usize| self.all_that_stands_before(table, i).is_subset(&waiting);
        let closed: Slots = waiting.iter().copied().filter(all_here).collect();
        if self.has_all_hard(table, block, &closed) { closed } else { Slots::new() }
    }

    fn all_that_stands_before(&self, table: &Table, slot: usize) -> Slots {
        let mut found = Slots::new();
        let mut to_visit = vec![slot];
        while let Some(next) = to_visit.pop() {
            for before in self.must_follow(table, next) {
                if found.insert(before) {
                    to_visit.push(before);
                }
            }
        }
        found
    }

    /// Highest number first.
    fn order_of_taking_back(&self, table: &Table, left_behind: &Slots) -> Vec<usize> {
        let mut order: Vec<usize> = left_behind.iter().copied().collect();
        order.sort_by_key(|&slot| table.slots[slot].number);
        order.reverse();
        order
    }

    fn take_back(&self, patch: &Slot, undo: &[u8], handed: &mut [u8]) {
        if let Some(room) = patch.room() {
            let old = undo.iter().skip(room_start(room)).take(patch.length as usize);
            put(handed, patch.offset as usize, &old.copied().collect::<Vec<u8>>());
        }
    }

    /// In flight from now on; a room it had is free.
    fn send(&self, patch: &mut Slot) {
        patch.state = match patch.state {
            State::WaitingHard => State::InFlightHard,
            State::WaitingSoft { .. } => State::InFlightSoft,
            State::Free | State::InFlightHard | State::InFlightSoft => patch.state,
        };
    }

    // ---- Complete ----

    fn complete(&self, table: &mut Table, block: u32) -> Result<(), Refusal> {
        self.judge(Kind::Complete, table, &Asked { block, ..Asked::default() })?;
        let committed = table.in_flight(block);
        for &slot in &committed {
            table.slots[slot] = Slot::free();
        }
        for patch in table.slots.iter_mut().filter(|slot| slot.used()) {
            self.forget_committed(patch, &committed);
        }
        Ok(())
    }

    fn forget_committed(&self, patch: &mut Slot, committed: &Slots) {
        patch.befores.retain(|before| !committed.contains(before));
    }

    // ---- Complete and go on ----

    /// Completing x gives a table or a refusal. On that table y is written, and what the write leaves is the table from then on; it
    /// leaves what it found where it is refused. With no table given nothing is written, and nothing was tried.
    fn complete_write(
        &self,
        table: &mut Table,
        image: &[u8],
        undo: &[u8],
        handed: &mut [u8],
        x: u32,
        y: u32,
    ) -> Both {
        let mut given = match self.given_by_completing(table, x) {
            Ok(given) => given,
            Err(refusal) => return self.not_tried(refusal),
        };
        let written = self.write(&mut given, image, undo, handed, y);
        *table = given;
        let second = written.as_ref().map_or_else(|&refusal| Second::Refused(refusal), |_| Second::Granted);
        Both { first: Ok(()), second, sent: written.unwrap_or_default() }
    }

    fn given_by_completing(&self, table: &Table, x: u32) -> Result<Table, Refusal> {
        let mut given = table.clone();
        self.complete(&mut given, x).map(|()| given)
    }

    fn not_tried(&self, refusal: Refusal) -> Both {
        Both { first: Err(refusal), second: Second::NotTried, sent: Slots::new() }
    }

    /// Whether the table's bytes are those of the table now, or stay as they were.
    fn writes_the_table(&self, both: &Both) -> bool {
        both.first.is_ok()
    }

    // ---- Ask and count ----

    fn ask(&self, table: &Table, number: u32) -> Result<Standing, Refusal> {
        self.judge(Kind::Ask, table, &Asked { numbers: &[number], ..Asked::default() })?;
        Ok(match table.slot_of(number) {
            None => Standing::Committed,
            Some(slot) if table.slots[slot].waiting() => Standing::Waiting,
            Some(_) => Standing::InFlight,
        })
    }

    fn count(&self, table: &Table, block: u32) -> Result<u32, Refusal> {
        self.judge(Kind::Count, table, &Asked { block, ..Asked::default() })?;
        Ok(self.counted(table, block).len() as u32)
    }

    fn counted(&self, table: &Table, block: u32) -> Slots {
        table.waiting(block)
    }
}

fn all_different(numbers: impl Iterator<Item = u32>) -> bool {
    let mut seen = BTreeSet::new();
    let mut numbers = numbers;
    numbers.all(|number| seen.insert(number))
}

/// The model as the papers have it, on the board.
pub struct Right;

impl Model for Right {}

/// The same under another setting.
pub struct Under(pub Setting);

impl Model for Under {
    fn setting(&self) -> Setting {
        self.0
    }
}
