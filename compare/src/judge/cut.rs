//! What the store holds when the power goes. The history is kept from the calls and their answers
//! alone, never from the library's table.
//!
//! Completed writes have landed; of the writes still out any may have landed. However that is, the
//! store must be the opening with the landed changes carried out singly in the order they were
//! accepted, and whatever a landed change named must have landed too. Where other histories came before
//! on the same store, the opening is the first one, with the changes that landed since (life.rs).
//!
//! A name below the first number asks for nothing in this history: it is not looked up among its changes.
//!
//! A number may stand for several changes, which land together: it is given again only while its patch waits. A change that names
//! it asks for those accepted earlier, and for no later one.

use crate::judge::cover::Cover;
use crate::judge::life::{Accepted, Past, carry};
use crate::model::bytes::set_of;
use crate::model::setting::Setting;
use crate::model::table::{BLOCK_BYTES, NOT_TRIED, SLOTS};
use crate::orders::steps::{Answer, Call, Lent};
use std::collections::{BTreeMap, BTreeSet};

/// A granted write that is out, and the numbers it sent.
struct Out {
    handed: Vec<u8>,
    numbers: BTreeSet<u32>,
}

pub struct History {
    setting: Setting,
    first: u32,
    past: Past,
    /// The first opening with the changes that landed in the histories before.
    opening: Vec<u8>,
    /// The image at the opening, with the blocks of all completed writes.
    store: Vec<u8>,
    accepted: Vec<Accepted>,
    out: BTreeMap<u32, Out>,
    /// The numbers that completed writes sent.
    landed: BTreeSet<u32>,
    /// The number in each slot, by the rule of the lowest free slot.
    slots: Vec<Option<u32>>,
}

impl History {
    pub fn opened(setting: Setting, first: u32, past: Past, image: &[u8]) -> History {
        History {
            setting,
            first,
            opening: past.store(),
            past,
            store: image.to_vec(),
            accepted: Vec::new(),
            out: BTreeMap::new(),
            landed: BTreeSet::new(),
            slots: vec![None; SLOTS],
        }
    }

    /// Notes a granted call, and holds its answer to the notes.
    pub fn record(
        &mut self,
        call: &Call,
        answer: &Answer,
        handed: &[u8],
        cover: &mut Cover,
    ) -> Result<(), String> {
        match call {
            Call::Open { .. } => Err(String::from("an opening begins a history, and is none of its calls")),
            Call::CompleteWrite { .. } => Err(String::from("a joint call is noted as the two that it makes")),
            Call::Create { block, offset, data, named } => {
                let (number, data, named) = (answer.number, data.clone(), named.clone());
                let change = Accepted { number, block: *block, offset: *offset, data, named };
                self.accept(change, answer.hold, cover)
            }
            Call::Write { block } => self.send(*block, answer.set, handed, cover),
            Call::Complete { block } => self.complete(*block, cover),
            Call::Ask { number } => self.asked(*number, answer.state, cover),
            Call::Count { block } => self.counted(*block, answer.count),
        }
    }

    /// A change of a new number takes the lowest free slot; one of a number given before goes with that number's changes.
    fn accept(&mut self, mut change: Accepted, hold: u32, cover: &mut Cover) -> Result<(), String> {
        change.named = self.asked_for(&change.named, cover)?;
        if change.number < self.first {
            return Err(format!("number {} was given, which is below first", change.number));
        }
        if self.was_given(change.number) {
            self.may_share(&change, hold)?;
        } else {
            let Some(free) = self.slots.iter_mut().find(|slot| slot.is_none()) else {
                return Err(String::from("a change was accepted with all slots in use"));
            };
            *free = Some(change.number);
            self.past.see_given(change.number, cover);
        }
        self.accepted.push(change);
        Ok(())
    }

    /// Those of the named numbers that this history gave. Any other must be from before its opening.
    fn asked_for(&self, named: &[u32], cover: &mut Cover) -> Result<Vec<u32>, String> {
        let (old, named): (Vec<u32>, Vec<u32>) = named.iter().partition(|&&number| self.is_old(number));
        if let Some(unknown) = named.iter().find(|&&number| !self.was_given(number)) {
            return Err(format!("a change was accepted that names {unknown}, which was never given"));
        }
        old.iter().for_each(|&number| self.past.see_old_name(number, cover));
        named.iter().for_each(|&number| self.past.see_name(number, cover));
        Ok(named)
    }

    /// From before the opening: committed, whatever was given then.
    fn is_old(&self, number: u32) -> bool {
        1 <= number && number < self.first
    }

    fn was_given(&self, number: u32) -> bool {
        self.changes_of(number).next().is_some()
    }

    /// Is this a number that may be given again, by what was noted?
    fn may_share(&self, change: &Accepted, hold: u32) -> Result<(), String> {
        let number = change.number;
        if !self.setting.joins() {
            return Err(format!("number {number} was given twice"));
        }
        if hold != 1 {
            return Err(format!("number {number} was given again to a change that is not hard"));
        }
        match self.waiting_on(change.block).first() {
            Some(&lowest) if lowest == number => Ok(()),
            lowest => Err(format!(
                "number {number} was given again on block {}, where {lowest:?} is the lowest that waits",
                change.block
            )),
        }
    }

    /// The numbers that wait on a block.
    fn waiting_on(&self, block: u32) -> BTreeSet<u32> {
        let here = self.accepted.iter().filter(|change| change.block == block);
        here.map(|change| change.number).filter(|&number| !self.sent(number)).collect()
    }

    fn changes_of(&self, number: u32) -> impl Iterator<Item = &Accepted> {
        self.accepted.iter().filter(move |change| change.number == number)
    }

    fn sent(&self, number: u32) -> bool {
        self.landed.contains(&number) || self.out.values().any(|out| out.numbers.contains(&number))
    }

    /// Each number sent is that of at least one accepted change, and all its changes are of the write's block.
    fn send(&mut self, block: u32, set: u64, handed: &[u8], cover: &mut Cover) -> Result<(), String> {
        if self.out.contains_key(&block) {
            return Err(format!("a write of block {block} was granted with one of it out"));
        }
        let numbers: Option<BTreeSet<u32>> = set_of(set).into_iter().map(|slot| self.slots[slot]).collect();
        let numbers = numbers.ok_or("a slot was sent that holds no change")?;
        for &number in &numbers {
            if self.sent(number) {
                return Err(format!("number {number} was sent twice"));
            }
            if !self.was_given(number) {
                return Err(format!("number {number} was sent, and is no accepted change's"));
            }
            if self.changes_of(number).any(|change| change.block != block) {
                return Err(format!("number {number} was sent to block {block}, which is not its own"));
            }
            if self.changes_of(number).nth(1).is_some() {
                cover.add("cut: a number of several changes sent", 0);
            }
        }
        self.out.insert(block, Out { handed: handed.to_vec(), numbers });
        Ok(())
    }

    fn complete(&mut self, block: u32, cover: &mut Cover) -> Result<(), String> {
        let Some(out) = self.out.remove(&block) else {
            return Err(format!("completion of block {block} was granted with no write of it out"));
        };
        let lowest =
            self.accepted.iter().position(|change| out.numbers.contains(&change.number)).unwrap_or(0);
        let later = &self.accepted[lowest..];
        if later.iter().any(|change| change.block == block && self.landed.contains(&change.number)) {
            cover.add("cut: a lower number landed after a higher one of its block", 0);
        }
        land(&mut self.store, block, &out.handed);
        for slot in &mut self.slots {
            slot.take_if(|number| out.numbers.contains(number));
        }
        self.landed.extend(out.numbers);
        Ok(())
    }

    fn asked(&self, number: u32, state: u32, cover: &mut Cover) -> Result<(), String> {
        let noted = self.noted(number)?;
        if state != noted {
            return Err(format!("ask says {state} of {number}, the notes {noted}"));
        }
        if self.is_old(number) {
            self.past.see_old_asked(number, cover);
            return Ok(());
        }
        cover.add("cut: ask as noted", noted);
        if noted == 3 { self.all_on_the_store(number, cover) } else { Ok(()) }
    }

    /// How a number stands by the notes. Those from before the opening are not looked up in them.
    fn noted(&self, number: u32) -> Result<u32, String> {
        if self.is_old(number) {
            return Ok(3);
        }
        if !self.was_given(number) {
            return Err(format!("ask was granted of {number}, which was never given"));
        }
        Ok(match (self.sent(number), self.landed.contains(&number)) {
            (false, _) => 1,
            (true, false) => 2,
            (true, true) => 3,
        })
    }

    /// What is called committed is on the store with all its changes: its block there is the opening's with all that committed.
    fn all_on_the_store(&self, number: u32, cover: &mut Cover) -> Result<(), String> {
        if self.changes_of(number).nth(1).is_some() {
            cover.add("cut: a number of several changes called committed", 0);
        }
        let Some(change) = self.changes_of(number).next() else {
            return Err(format!("{number} was called committed, and is no accepted change's"));
        };
        let start = BLOCK_BYTES * change.block as usize;
        let expected = self.block_with(change.block, &|change| self.landed.contains(&change.number));
        same_bytes(&self.store[start..start + BLOCK_BYTES], &expected, start, &[])
    }

    /// The opening's block with those of its changes carried out that pass.
    fn block_with(&self, block: u32, landed: &dyn Fn(&Accepted) -> bool) -> Vec<u8> {
        let start = BLOCK_BYTES * block as usize;
        let mut bytes = self.opening[start..start + BLOCK_BYTES].to_vec();
        for change in self.accepted.iter().filter(|change| change.block == block && landed(change)) {
            carry(&mut bytes, change.offset as usize, &change.data);
        }
        bytes
    }

    fn counted(&self, block: u32, count: u32) -> Result<(), String> {
        let waiting = self.waiting_on(block).len();
        if waiting == count as usize { Ok(()) } else { Err(format!("{count} counted for {waiting}")) }
    }

    /// What a store that lost its power now would hold, with the writes of these blocks landed.
    pub fn store_after(&self, landed: &[u32]) -> Vec<u8> {
        let mut store = self.store.clone();
        for (block, out) in self.out.iter().filter(|(block, _)| landed.contains(block)) {
            land(&mut store, *block, &out.handed);
        }
        store
    }

    pub fn blocks_out(&self) -> Vec<u32> {
        self.out.keys().copied().collect()
    }

    /// Nothing waits and nothing is out: the store is the working image, and a sleep loses nothing.
    pub fn at_rest(&self) -> bool {
        self.slots.iter().all(|slot| slot.is_none())
    }

    /// The power goes, with the writes of these blocks landed of those that are out. What the next history has behind it.
    pub fn ended(mut self, landed: &[u32], cover: &mut Cover) -> Result<Past, String> {
        let landed: Vec<u32> = self.blocks_out().into_iter().filter(|block| landed.contains(block)).collect();
        self.cut_with(&landed, cover)?;
        for block in landed {
            self.complete(block, cover)?;
        }
        self.past.add(self.first, self.accepted, &self.landed);
        self.past.rest_is_untouched(&self.store)?;
        Ok(self.past)
    }

    /// Cuts with none of the writes out landed, with each of them alone, and with all.
    ///
    /// That is every cut there is: each change sent is of its write's block, so a block's bytes depend on its own write alone, and
    /// what one change asked of another on the two writes alone.
    pub fn cut(&self, cover: &mut Cover) -> Result<(), String> {
        let blocks = self.blocks_out();
        cover.add("cut: no write out landed", 0);
        self.cut_with(&[], cover)?;
        for &block in &blocks {
            self.cut_alone(block)?;
            if blocks.len() >= 2 {
                cover.add("cut: one write out of several landed", 0);
            }
        }
        if !blocks.is_empty() {
            cover.add("cut: all writes out landed", 0);
            self.cut_with(&blocks, cover)?;
        }
        Ok(())
    }

    fn cut_with(&self, blocks: &[u32], cover: &mut Cover) -> Result<(), String> {
        let landed = |change: &Accepted| {
            let now = |block: &u32| self.out[block].numbers.contains(&change.number);
            self.landed.contains(&change.number) || blocks.iter().any(now)
        };
        self.nothing_asked_is_missing(&landed, cover)?;
        let mut expected = self.opening.clone();
        self.accepted
            .iter()
            .filter(|change| landed(change))
            .for_each(|change| change.carry_out(&mut expected));
        same_bytes(&self.store_after(blocks), &expected, 0, blocks)
    }

    /// Only the block that landed differs from the cut with none.
    fn cut_alone(&self, block: u32) -> Result<(), String> {
        let out = &self.out[&block];
        let landed =
            |change: &Accepted| self.landed.contains(&change.number) || out.numbers.contains(&change.number);
        self.nothing_asked_is_missing(&landed, &mut Cover::default())?;
        let expected = self.block_with(block, &landed);
        same_bytes(&out.handed, &expected, BLOCK_BYTES * block as usize, &[block])
    }

    /// Asked of every landed change, so it covers what is named through others as well. A change asks for what was accepted before it:
    /// `missing` has, at each change, the numbers of earlier changes that did not land.
    fn nothing_asked_is_missing(
        &self,
        landed: &dyn Fn(&Accepted) -> bool,
        cover: &mut Cover,
    ) -> Result<(), String> {
        let mut missing = BTreeSet::new();
        for change in &self.accepted {
            if !landed(change) {
                missing.insert(change.number);
                continue;
            }
            if let Some(named) = change.named.iter().find(|named| missing.contains(named)) {
                return Err(format!(
                    "a change of {} landed, {named}, which it names, did not",
                    change.number
                ));
            }
            if !change.named.is_empty() {
                cover.add("cut: a landed change names a landed one", 0);
            }
        }
        Ok(())
    }

    /// When every accepted change has committed, the store is the working image.
    pub fn settled(&self, lent: &Lent, cover: &mut Cover) -> Result<(), String> {
        if self.at_rest() && !self.accepted.is_empty() {
            cover.add("cut: all committed, store equals working image", 0);
            if self.store != lent.image {
                return Err(String::from("all changes committed, but the store is not the working image"));
            }
        }
        Ok(())
    }
}

/// Of a joint call: the write was tried where completing was granted, and patches went where the write was.
pub fn both_agree(answer: &Answer) -> Result<(), String> {
    let Answer { refusal, second, set, .. } = *answer;
    if (second == NOT_TRIED) != (refusal != 0) {
        return Err(format!("completing was answered {refusal}, and the write after it {second}"));
    }
    if (set == 0) != (second != 0) {
        return Err(format!("a write was answered {second}, with the slots {set:#x} sent"));
    }
    Ok(())
}

/// `start` is where the bytes stand in the store.
fn same_bytes(store: &[u8], expected: &[u8], start: usize, blocks: &[u32]) -> Result<(), String> {
    if store == expected {
        return Ok(());
    }
    let at = (0..expected.len()).find(|&i| store.get(i) != Some(&expected[i])).unwrap_or(0);
    let (block, offset) = ((start + at) / BLOCK_BYTES, (start + at) % BLOCK_BYTES);
    let (has, wanted) = (store.get(at), expected[at]);
    Err(format!(
        "cut with the writes of blocks {blocks:?} landed: the store's block {block} has {has:?} at \
         offset {offset}, the landed changes singly give {wanted}"
    ))
}

fn land(store: &mut [u8], block: u32, handed: &[u8]) {
    carry(store, BLOCK_BYTES * block as usize, handed);
}

#[cfg(test)]
mod tests {
    use super::*;
    use crate::orders::steps::{ask, create, write};

    const IMAGE: [u8; 64 * BLOCK_BYTES] = [0; 64 * BLOCK_BYTES];

    fn cover() -> Cover {
        Cover::default()
    }

    /// A history of an all zero image in which 1 waits on block 1, and 2 on block 2.
    fn two_wait(setting: Setting) -> History {
        let mut history = History::opened(setting, 1, Past::none(&IMAGE), &IMAGE);
        for number in [1, 2] {
            assert_eq!(given(&mut history, number, number, 1), Ok(()));
        }
        history
    }

    /// A change of one byte on a block, each at another offset, answered a number and a hold.
    fn given(history: &mut History, block: u32, number: u32, hold: u32) -> Result<(), String> {
        let answer = Answer { number, hold, ..Answer::default() };
        let offset = history.accepted.len() as u32;
        history.record(&create(block, offset, &[7], &[]).call, &answer, &[], &mut cover())
    }

    /// A hard change of block 3 that names numbers.
    fn naming(history: &mut History, number: u32, named: &[u32]) -> Result<(), String> {
        let answer = Answer { number, hold: 1, ..Answer::default() };
        history.record(&create(3, 9, &[7], named).call, &answer, &[], &mut cover())
    }

    fn sent(history: &mut History, block: u32, set: u64, handed: &[u8]) -> Result<(), String> {
        let answer = Answer { set, ..Answer::default() };
        history.record(&write(block).call, &answer, handed, &mut cover())
    }

    fn says(history: &mut History, number: u32, state: u32) -> Result<(), String> {
        let answer = Answer { state, ..Answer::default() };
        history.record(&ask(number).call, &answer, &[], &mut cover())
    }

    /// The history above after a cut in which 1 landed and 2 was lost, opened again on that store.
    fn opened_again(first: u32) -> History {
        let mut before = two_wait(Setting::Board);
        let mut handed = [0; BLOCK_BYTES];
        handed[0] = 7;
        assert_eq!(sent(&mut before, 1, 1, &handed), Ok(()));
        let image = before.store_after(&[1]);
        let past = before.ended(&[1], &mut cover()).expect("a cut that the store survives");
        History::opened(Setting::Board, first, past, &image)
    }

    #[test]
    fn a_number_is_given_again_only_where_it_waits() {
        let board = || two_wait(Setting::Board);
        assert_eq!(given(&mut board(), 1, 1, 1), Ok(()));
        assert!(given(&mut board(), 1, 1, 2).is_err(), "a soft change");
        assert!(given(&mut board(), 1, 2, 1).is_err(), "a number of another block");
        assert!(given(&mut two_wait(Setting::HardRule), 1, 1, 1).is_err(), "no joining");
        let mut later = board();
        assert_eq!(given(&mut later, 1, 3, 2), Ok(()));
        assert!(given(&mut later, 1, 3, 1).is_err(), "not the lowest that waits");
        let mut flying = board();
        assert_eq!(sent(&mut flying, 1, 1, &[0; BLOCK_BYTES]), Ok(()));
        assert!(given(&mut flying, 1, 1, 1).is_err(), "a number in flight");
    }

    #[test]
    fn both_answers_of_a_joint_call_agree() {
        let agree = |refusal, second, set| both_agree(&Answer { refusal, second, set, ..Answer::default() });
        for (refusal, second, set) in [(0, 0, 1), (0, 13, 0), (0, 1, 0), (14, NOT_TRIED, 0)] {
            assert_eq!(agree(refusal, second, set), Ok(()));
        }
        assert!(agree(14, 0, 0).is_err() && agree(14, 14, 0).is_err(), "tried though refused");
        assert!(agree(14, NOT_TRIED, 1).is_err() && agree(0, 13, 1).is_err(), "sent though refused");
        assert!(agree(0, NOT_TRIED, 0).is_err(), "not tried though granted");
        assert!(agree(0, 0, 0).is_err(), "granted, and nothing sent");
    }

    #[test]
    fn the_changes_of_a_number_land_together() {
        let mut handed = [0; BLOCK_BYTES];
        for (offset, whole) in [(0, false), (2, true)] {
            handed[offset] = 7;
            let mut history = two_wait(Setting::Board);
            assert_eq!(given(&mut history, 1, 1, 1), Ok(()));
            assert_eq!(sent(&mut history, 1, 1, &handed), Ok(()));
            assert_eq!(history.cut(&mut cover()).is_ok(), whole);
        }
    }

    #[test]
    fn a_name_below_first_asks_for_nothing() {
        for (named, may) in [(1, true), (2, true), (0, false), (3, false), (4, false)] {
            assert_eq!(naming(&mut opened_again(3), 3, &[named]).is_ok(), may, "{named} named");
            assert_eq!(says(&mut opened_again(3), named, 3).is_ok(), may, "{named} asked for");
        }
        assert!(says(&mut opened_again(3), 2, 1).is_err(), "below first, and waiting");
        assert!(naming(&mut opened_again(3), 2, &[]).is_err(), "a number below first given");
    }

    #[test]
    fn a_number_of_two_histories_is_the_later_ones() {
        for (first, may) in [(3, true), (2, false)] {
            let mut history = opened_again(first);
            let mut slots = 0;
            if first == 2 {
                assert_eq!(given(&mut history, 2, 2, 1), Ok(()));
                slots = 1;
            }
            assert_eq!(naming(&mut history, 3, &[1, 2]), Ok(()));
            let mut handed = [0; BLOCK_BYTES];
            handed[9] = 7;
            assert_eq!(sent(&mut history, 3, 1 << slots, &handed), Ok(()));
            assert_eq!(history.cut(&mut cover()).is_ok(), may, "2 waits where first is 2");
        }
    }

    #[test]
    fn a_life_is_held_to_its_first_opening() {
        for (earlier, kept) in [(7, true), (0, false), (8, false)] {
            let mut history = opened_again(3);
            assert_eq!(history.cut(&mut cover()), Ok(()));
            let answer = Answer { number: 3, hold: 1, ..Answer::default() };
            let change = create(1, 5, &[9], &[]).call;
            assert_eq!(history.record(&change, &answer, &[], &mut cover()), Ok(()));
            let mut handed = [0; BLOCK_BYTES];
            (handed[0], handed[5]) = (earlier, 9);
            assert_eq!(sent(&mut history, 1, 1, &handed), Ok(()));
            assert_eq!(history.cut(&mut cover()).is_ok(), kept, "{earlier} where 7 landed before");
            assert_eq!(history.ended(&[1], &mut cover()).is_ok(), kept);
        }
    }

    #[test]
    fn an_image_that_is_not_the_stores_shows() {
        let past = || opened_again(3).past;
        let mut image = past().store();
        assert_eq!(past().rest_is_untouched(&image), Ok(()));
        image[BLOCK_BYTES * 5] = 1;
        assert!(past().rest_is_untouched(&image).is_err());
        assert!(History::opened(Setting::Board, 3, past(), &image).cut(&mut cover()).is_err());
    }
}
