//! What a store went through before a history: nothing, or other histories of the same store. All of them together are a life. It is
//! held to its first opening: the store must be that one with the landed changes of all its histories carried out singly in the order
//! they were accepted, and a byte that none of these names must have its first value.
//!
//! A later history may give numbers that an earlier one gave, so no change is looked up here by its number. The numbers are kept to
//! say what was reached.

use crate::judge::cover::Cover;
use crate::model::table::BLOCK_BYTES;
use std::cmp::Ordering;
use std::collections::BTreeSet;

/// An accepted change; its place among all of them is the order.
pub struct Accepted {
    pub number: u32,
    pub block: u32,
    pub offset: u32,
    pub data: Vec<u8>,
    /// The changes of its own history that it asks for.
    pub named: Vec<u32>,
}

impl Accepted {
    fn start(&self) -> usize {
        BLOCK_BYTES * self.block as usize + self.offset as usize
    }

    pub fn carry_out(&self, store: &mut [u8]) {
        carry(store, self.start(), &self.data);
    }
}

pub fn carry(store: &mut [u8], from: usize, bytes: &[u8]) {
    for (place, byte) in store.iter_mut().skip(from).zip(bytes) {
        *place = *byte;
    }
}

pub struct Past {
    first_opening: Vec<u8>,
    /// The changes of all histories that landed, in the order accepted.
    landed: Vec<Accepted>,
    histories: usize,
    /// What the next number was when the last history ended.
    next: u32,
    /// The numbers that landed, and those that were given and lost.
    numbers_landed: BTreeSet<u32>,
    numbers_lost: BTreeSet<u32>,
}

impl Past {
    /// A store that was never opened before.
    pub fn none(image: &[u8]) -> Past {
        Past {
            first_opening: image.to_vec(),
            landed: Vec::new(),
            histories: 0,
            next: 0,
            numbers_landed: BTreeSet::new(),
            numbers_lost: BTreeSet::new(),
        }
    }

    /// What the store must hold.
    pub fn store(&self) -> Vec<u8> {
        let mut store = self.first_opening.clone();
        self.landed.iter().for_each(|change| change.carry_out(&mut store));
        store
    }

    /// One more history has ended, which was opened at a first number, with these numbers landed.
    pub fn add(&mut self, first: u32, accepted: Vec<Accepted>, landed: &BTreeSet<u32>) {
        let last = accepted.iter().map(|change| change.number).max();
        self.next = last.map_or(first, |last| last.saturating_add(1));
        self.histories += 1;
        for change in accepted {
            if landed.contains(&change.number) {
                self.numbers_landed.insert(change.number);
                self.landed.push(change);
            } else {
                self.numbers_lost.insert(change.number);
            }
        }
    }

    /// A byte that no landed change names has its first value.
    pub fn rest_is_untouched(&self, store: &[u8]) -> Result<(), String> {
        let mut named = vec![0; store.len()];
        self.landed.iter().for_each(|change| carry(&mut named, change.start(), &vec![1; change.data.len()]));
        match (0..store.len()).find(|&at| named[at] == 0 && store[at] != self.first_opening[at]) {
            None => Ok(()),
            Some(at) => Err(format!(
                "the store's block {} has another value at offset {} than at the first opening, and no landed change names it",
                at / BLOCK_BYTES,
                at % BLOCK_BYTES
            )),
        }
    }

    // ---- What was reached ----

    pub fn see_opening(&self, first: u32, cover: &mut Cover) {
        if self.histories == 0 {
            return;
        }
        let name = match first.cmp(&self.next) {
            Ordering::Equal => "life: opened at the old next",
            Ordering::Greater => "life: opened above the old next",
            Ordering::Less => "life: opened below the old next",
        };
        cover.add(name, 0);
        if self.histories >= 3 {
            cover.add("life: a fourth history or a later one", 0);
        }
    }

    /// A number below first was named.
    pub fn see_old_name(&self, number: u32, cover: &mut Cover) {
        if self.numbers_landed.contains(&number) {
            cover.add("life: names a number below first that landed earlier", 0);
        }
        if self.numbers_lost.contains(&number) {
            cover.add("life: names a number below first that was lost", 0);
        }
    }

    /// A number below first was asked for.
    pub fn see_old_asked(&self, number: u32, cover: &mut Cover) {
        if self.numbers_landed.contains(&number) {
            cover.add("life: ask of a number below first that landed earlier", 0);
        }
        if self.numbers_lost.contains(&number) {
            cover.add("life: ask of a number below first that was lost", 0);
        }
    }

    fn gave(&self, number: u32) -> bool {
        self.numbers_landed.contains(&number) || self.numbers_lost.contains(&number)
    }

    /// This history gave a number.
    pub fn see_given(&self, number: u32, cover: &mut Cover) {
        if self.gave(number) {
            cover.add("life: a number given that an earlier history gave", 0);
        }
    }

    /// A number that this history gave was named.
    pub fn see_name(&self, number: u32, cover: &mut Cover) {
        if self.gave(number) {
            cover.add("life: names a number that an earlier history gave too", 0);
        }
    }
}
